"""Work as a list of independent jobs: each is one command, with its inputs and the file that it makes. No proof stands on it.

    plan        what a folder of jobs is: the kind of its runs, how many, by which program, and which runs a job makes
    kinds       the table of kinds; each has a module that makes a run of a number
    origin      the program on this machine: its version, the sum of its binary
    files       the file of a job, row by row, and what is whole of it
    worker      does a job, and goes on where it was stopped
    listing     the list as commands, for a shell or for make
    joblog      the job log, in the form of GNU parallel
    engine      hands the list to GNU parallel, or does one job after another
    hosts       other machines: the inputs are put there, and what the jobs print comes back
    watching    how far it is, and the time to the end
    options     what each word that makes jobs takes, and what it does with them
    words       the word of `tools/wb` that does one job: job

A folder of jobs has `plan.json` and the inputs, `done/N.rows` of each job that is done, `done/N.part` of one that isn't, `said/` with what
jobs print, `jobs.list` and `jobs.log`. `program-MACHINE.json` is what a machine has found of its program.
"""
