"""From the logs of a cluster's nodes to an input of `judge`: reading, the order between nodes, names, writing."""
