/** A server that answers SPARQL queries over HDT files: the query operation of SPARQL 1.1 Protocol. */
package io.github.tickmarl.hdt.serve;
