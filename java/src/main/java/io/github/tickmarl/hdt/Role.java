package io.github.tickmarl.hdt;

/**
 * The position of a term in a triple. Each has IDs of its own; a term that is subject and object has one ID in both.
 */
public enum Role {
    /** The subject. */
    SUBJECT,
    /** The predicate. */
    PREDICATE,
    /** The object. */
    OBJECT
}
