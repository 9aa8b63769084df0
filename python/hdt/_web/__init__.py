"""What the servers of this package share, `hdt.fragments` and `hdt.sparql`."""
