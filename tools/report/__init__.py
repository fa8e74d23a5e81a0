"""A report to look at in a browser: one file that needs no network, drawn with plotly. No proof stands on it.

    thinning        long series in bounded memory, with their peaks
    content         what a report says, whatever it is of
    causes          why writers paused: how often and how long
    of_journal      the report of a trace and its journal
    journal_causes  which cause a check of a journal has
    of_kernel       the report of a kernel's text
    kernel_why      what is shown of a check of a kernel: what `wb kernel explain` says of it, and its numbers
    script          plotly's script
    page            the file: page.html with page.css, page.js, the content and plotly's script in it
    words           the word of `tools/wb`

What else is to have a report (a forecast, as an instance) gets a module that answers a `content.Report`, and a row in `words/report.py`;
the page knows nothing of where its content comes from.
"""
