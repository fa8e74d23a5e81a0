# Replays in which writers are checked, with and without cgroups, and every page is written.

fits 70 "replay: realistic.trace" && cleaned replay "$root/examples/realistic.trace" '80000 80000'
fits 200 "replay: ordinary.trace" && cleaned replay "$root/examples/ordinary.trace" '311296 311296'
