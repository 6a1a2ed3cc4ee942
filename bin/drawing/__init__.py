"""Pictures of a run: reads the report of a run, and draws who held what over time as an SVG.

From bytes to picture: `lines` reads a line, `sources` a whole report, `run` what the lines say of the ring and its
nodes, `partitions` what they say of partitions, `clocks` puts several processes on one time, `axes` turns times and
points into places of the picture, the `*_panel` modules draw, and `page` puts the panels together. `svg` and
`palette` know nothing of runs.
"""
