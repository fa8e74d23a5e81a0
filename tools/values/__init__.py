"""Judged journals as values of the definitions, and their verdicts as equations. No proof stands on it but those of `wbt_judged`.

    notation  lists, records and integers, as definitions have them
    cases     the judged cases of a folder, and which of them are taken
    changes   the journals of tools/judged/, and what is changed in them
    traces    a trace as a value
    journals  a journal as a value
    lines     the file of what each line is as a value, and which of its names a text uses
    imports   which definitions of other crates a text uses
    specs     the definitions of the crate: the values, and what is claimed of them
    proofs    its proofs: each verdict by computation
"""
