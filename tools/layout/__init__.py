"""A drawing of a wiring without Graphviz: blocks in layers from left to right, as SVG."""
