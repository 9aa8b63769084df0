"""Plants mutants in the Java package, one after another, and prints which test sees each first.

    java/build --tests out/java && HDT_BUILT=dist/x86_64-linux-gnu python3 java/mutants.py [NUMBER ..]

A mutant is an edit of one file: a wrong body. The tests of queries, files and graphs are run over it, class by class,
until one fails. A test that is late had a query that took too long, which on a busy machine says nothing. Ends with
status 1 if a mutant is not seen, and is not one of those that change no answer.
"""

from __future__ import annotations

import os
import re
import resource
import shutil
import signal
import subprocess
import sys
import tempfile
from pathlib import Path

TOP = Path(__file__).resolve().parent.parent
OUT = TOP / "out/java"
SOURCES = TOP / "java/src/main/java/io/github/tickmarl/hdt"
JUNIT = "/usr/share/java/junit-platform-console-standalone.jar"
CLASSES = ["QueriesTest", "RandomQueriesTest", "HdtFileTest", "HdtGraphTest", "LongTableTest"]
# The class of tests that is run first for a file, if it isn't QueriesTest.
FIRST = {"LongTable": "LongTableTest", "HdtFile": "HdtFileTest", "Handles": "HdtFileTest", "HdtGraph": "HdtGraphTest",
         "HdtParts": "HdtGraphTest", "Manifest": "HdtGraphTest"}
SECONDS = 100  # of CPU time, for one class

# The file, what is replaced, and by what.
MUTANTS = [
    ("Terms", "object <= file.shared() ? object : object + more", "object < file.shared() ? object : object + more"),
    ("Terms", "node <= subjects ? HdtFile.NONE : node - more", "node - more"),
    ("Terms", "return node <= subjects ? node : HdtFile.NONE;", "return node;"),
    ("Terms", "return isString(node) ? text : text", "return text"),
    ("Terms", "ids[middle] <= subjects", "ids[middle] <= file.shared()"),
    ("Terms", "suffix.substring(1));", "suffix.substring(1).toLowerCase());"),
    ("Terms", 'iri.startsWith("\\"") || iri.startsWith("_:") ? null : iri', "iri"),
    ("Terms", "if (it != null && it.node.equals(node)) {", "if (it != null) {"),
    ("HdtGraph", "next = page[3 * most];", "next = -1;"),
    ("HdtGraph", "most *= 8;", "most *= 8; next++;"),
    ("HdtFile", "!Character.isLowSurrogate(string.charAt(++i))", "false"),
    ("HdtFile", "counted.set((int) p, count + 1);", "counted.set((int) p, count);"),
    ("HdtFile", "Math.min(to, begin + MOST)", "Math.min(to, begin + MOST - 1)"),
    ("Handles", "        if (closed) {\n            endFree(slot);\n        }\n", ""),
    ("Handles", "free.getAndSet(slot(), null)", "free.get(slot())"),
    ("HdtParts", "sum.getValue() % parts.size()", "sum.getValue() / 2 % parts.size()"),
    ("Manifest", "Files.size(path) != number(row, \"bytes\")", "false"),
    ("Manifest", "file.triples() != number(row, \"triples\")", "false"),
    ("Plan", "return isPredicate[slot] ? value : terms.number(Role.PREDICATE, terms.node(value));", "return value;"),
    ("Plan", "return isPredicate[slot] ? id : terms.nodeId(terms.predicate(id));", "return id;"),
    ("LazyBinding", "lazy.rows.isPredicate[column] == isPredicate", "true"),
    ("LazyBinding", "lazy.rows.terms == terms", "true"),
    ("Walk", "values[plan.slots[step.pattern][role]] = 0;", ";"),
    ("Walk", "values[slot] != 0 && values[slot] != value", "false"),
    ("Walk", "step.next = step.page[3 * step.most];", "step.next = -1;"),
    ("Walk", "if (value < 0 ||", "if ("),
    ("Walk", "if (values[i] < 0 || values[i] > 0 && !passes(i, values[i])) {", "if (values[i] < 0) {"),
    ("Walk", "isNeeded[slots[role]] || plan.tests[slots[role]] != null", "isNeeded[slots[role]]"),
    ("Walk", "                || slots[role] == slots[(role + 1) % 3])) {", "                )) {"),
    ("Walk", "step.asked != rest", "step.asked == -2"),
    ("Walk", "if (passing != null ? passing[i] : ids[i] > 0 && passes(slot, ids[i])) {", "if (true) {"),
    ("Walk", "count < least", "count > least || chosen < 0"),
    ("Test", "passing[i] = (kept & 1) != 0;", "passing[i] = true;"),
    ("Test", "function instanceof E_Random ||", ""),
    ("Conjunction", "return vars().containsAll(mentioned);", "return true;"),
    ("Conjunction", "if (slot < 0 || !Test.isPure(filter)) {", "if (slot < 0) {"),
    ("JoinIterator", "if (isOptional && !isFound) {", "if (isOptional) {"),
    ("JoinIterator", "new LazyBinding(parents[i], rows", "new LazyBinding(parents[0], rows"),
    ("JoinIterator", "seen.add(key) == before", "seen.add(key) >= 0"),
    ("Matcher", "isSame = walk.values[shape.columns[i]] == 0;", "isSame = true;"),
    ("Matcher", "if (filters.isEmpty() || passes()) {", "if (true) {"),
    ("HdtExecutor", "return matcher.next() == isWanted;", "return matcher.next();"),
    ("HdtExecutor", "project instanceof OpProject && input instanceof QueryIterRoot", "project instanceof OpProject"),
    ("HdtExecutor", "common.retainAll(OpVars.visibleVars(op.getLeft()));", ""),
    ("HdtExecutor", "if (it != null && it.isClosed()) {", "if (it != null) {"),
    ("CountIterator", "counts[first + i] += walk.weight();", "counts[first + i]++;"),
    ("CountIterator", "new long[] {group, walk", "new long[] {0, walk"),
    ("CountIterator", "groupSlots.length == 0 && groups.size() == 0", "groups.size() == 0"),
    ("Paths", "isForward ? path.getLeft() : path.getRight(), node", "path.getLeft(), node"),
    ("Paths", "link(((P_ReverseLink) path).getNode(), node, !isForward, out);",
     "link(((P_ReverseLink) path).getNode(), node, isForward, out);"),
    ("Paths", "edges(HdtFile.ANY, node, !isForward, path.getBwdNodes(), out);", ""),
    ("Paths", "seen.add(new long[] {between.get(i)}) == before", "seen.add(new long[] {between.get(i)}) < 0"),
    ("Paths", "* zeroLengths(((P_Seq) path).getRight())", ""),
    ("PathIterator", "if (!Var.isVar(subject) || !Var.isVar(object)) {", "if (true) {"),
    ("PathIterator", "node < terms.greatest ? node + 1", "node + 1 < terms.greatest ? node + 1"),
    ("PathIterator", "count += ends.get(i) == end ? 1 : 0;", "count = ends.get(i) == end ? 1 : count;"),
    ("LongTable", "slot = slot + 1 & mask;", "slot = slot + 2 & mask;"),
    ("LongTable", "keys, (slots[slot] - 1) * width, slots[slot] * width, key, 0, width",
     "keys, (slots[slot] - 1) * width, (slots[slot] - 1) * width + 1, key, 0, 1"),
]
# Those that change no answer, and why.
EQUAL = {
    21: "between graphs ARQ puts terms in place of variables",
    25: "such a value matches nothing anywhere else",
    31: "the pattern that is chosen may be any: it takes more time",
    49: "SPARQL's parser makes no such path outside of !(..), where it is not followed",
}


def sees(number: int) -> str:
    """Plant a mutant, and return the tests that see it."""
    name, old, new = MUTANTS[number]
    source = (SOURCES / f"{name}.java").read_text()
    if old not in source:
        return "the text is not in the file"
    with tempfile.TemporaryDirectory() as folder:
        shutil.copytree(OUT / "classes", folder, dirs_exist_ok=True)
        mutant = Path(folder) / "mutant" / f"{name}.java"
        mutant.parent.mkdir()
        mutant.write_text(source.replace(old, new))
        path = f"{folder}:{(OUT / 'classpath').read_text().strip()}"
        done = subprocess.run(["javac", "-nowarn", "-cp", path, "-d", folder, mutant], capture_output=True, text=True)
        if done.returncode:
            return f"doesn't compile: {done.stderr}"
        classes = sorted(CLASSES, key=lambda it: it != FIRST.get(name, CLASSES[0]))
        return next((f"seen: {found}" for it in classes if (found := failed(it, folder, path))), "")


def failed(name: str, folder: str, path: str) -> str:
    """The tests of a class that fail over the classes in a folder, or how Java ends otherwise; empty if all pass."""
    command = ["java", "-XX:+UseSerialGC", "-Xmx1g", f"-Dhdt.built={Path(os.environ['HDT_BUILT']).resolve()}",
               "-Dhdt.graphs=12", "-cp", f"{folder}:{OUT}/tests:{path}:{JUNIT}",
               "org.junit.platform.console.ConsoleLauncher", "--disable-banner", "--details=summary",
               "--select-class", f"io.github.tickmarl.hdt.{name}"]
    done = subprocess.run(command, capture_output=True, text=True, cwd=folder, preexec_fn=lambda: resource.setrlimit(
        resource.RLIMIT_CPU, (SECONDS, SECONDS)))
    if done.returncode == -signal.SIGKILL:
        return f"{name} doesn't end"
    found = [f"{test} (late)" if error.endswith("QueryCancelledException") else test
             for test, error in re.findall(r"^  JUnit Jupiter:(\S+)\n.*\n *=> ([\w.]+)", done.stdout, re.M)]
    return " ".join(found) if found or done.returncode == 0 else f"{name} ends with status {done.returncode}"


def main() -> int:
    """Judge the mutants with these numbers, or all."""
    numbers = [int(word) for word in sys.argv[1:]] or range(len(MUTANTS))
    missed = 0
    for number in numbers:
        result = sees(number)
        if not result.startswith("seen") and number not in EQUAL:
            missed += 1
        print(number, MUTANTS[number][0], "|", result or EQUAL.get(number, "NOT SEEN"), flush=True)
    print(f"{len(numbers)} mutants, {missed} not seen")
    return 1 if missed else 0


if __name__ == "__main__":
    sys.exit(main())
