"""Questions in names, times and pictures over Linux audit logs.

autrail starts the program audit_cli over the logs or over a store, hands it question lines, and puts its replies into names,
times and pictures. Which objects are in an answer, and which path is shown, is the program's answer alone. What autrail reads
from the log's lines by itself (arguments, users, sessions, terminals, and what to mistrust) is marked as read from the log.
If the program audit_order is there, the logs go through it first, and the answer is about the order that it writes; --no-order leaves
that out, and `stat` is about the log as it is. `keep` hands what is new of a log to the program, which takes it into a store.

The modules, lowest first; none imports one that stands below it here:

    basics      how a run ends, and text as it may reach a terminal
    times       the words that spell times, and times as they are shown
    stores      whether a file is a store, and of which mode
    logs        the files of a log, in order, and their bytes in pieces
    signs       what tells that a log is less fit for answers: hosts, machines and times
    lines       what autrail reads from the log's own lines
    programs    the programs that autrail starts
    kept        what `keep` notes beside a store
    common      the names of objects that nearly every process reads
    things      objects and flows
    session     the program over a log or a store, with what was asked of it
    trust       what to mistrust
    naming      which objects a word means
    hidden      which objects of an answer aren't shown
    trees       one path for each object, as a tree
    processes   arguments and users of processes, in words
    pictures    a tree as a picture
    json_lines  objects and steps as lines of JSON
    evidence    the log's lines for the steps of a path
    pager       long answers at a terminal
    reach, paths, listing, counts, rules    the commands `back` and `fore`, `why`, `find` and `show`, `stat`, `rules`
    whole, held, portions, keep             the command `keep`: where to cut, files that are renamed meanwhile, portions, the run
    commands    the commands by name
    options     the words of the command line
    prompt      the command `ask`
    main        a run, from its words to its status
"""
