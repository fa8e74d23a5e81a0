"""What the gate costs: processes below `rt ci` are sampled once a second, and counted to the crate that they serve and to what is done for it.

| Module | What it has |
|---|---|
| `crates` | which crate stands on which |
| `process` | what is known of a process; its line of a log, written and read |
| `sampling` | the processes below one, once a second |
| `serving` | which crate a process serves, and for what |
| `costs` | processor time, elapsed time and memory by crate; the longest chain |
| `report` | the table |

`tools/gate-time` is their program.
"""
