package io.github.tickmarl.hdt.serve;

/** A request that gets an error: its status, and what the answer says. */
final class Refused extends Exception {
    private static final long serialVersionUID = 1L;

    /** The status of HTTP. */
    final int status;

    Refused(int status, String message) {
        super(message);
        this.status = status;
    }
}
