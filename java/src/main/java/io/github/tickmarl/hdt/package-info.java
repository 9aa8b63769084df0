/** Apache Jena over HDT files. {@link io.github.tickmarl.hdt.Hdt} is where to begin. */
package io.github.tickmarl.hdt;
