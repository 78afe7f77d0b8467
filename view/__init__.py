"""The parts of `./look`: what `ssi` said of a layout and its script, shown so that a person can look at it.

Nothing here is proved. What is shown comes from the output of `ssi`, or from a text that `ssi` has
accepted; what these parts work out themselves they mark as their own.
"""
