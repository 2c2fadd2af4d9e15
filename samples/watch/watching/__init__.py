"""What samples/watch/metrics and samples/watch/page read: a proxy's log, the service's lines, snapshots of a store, and the machine. Python's standard library alone."""
