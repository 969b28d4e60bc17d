# Random schedules, of stamped records and of plain ones, of several CPUs and slots: awk -v seed=SEED -v count=COUNT -v to=FOLDER -f tests/trace_folders.awk
# writes so many to the folder, `1.schedule`, `2.schedule`, ..
function roll(sides) { return int(rand() * sides) }

# A value of a field of so many bytes; the greatest, or the one below, in one of four.
function value(width,  top) {
    top = width >= 4 ? 4294967296 : 256 ^ width
    return roll(4) == 0 ? top - 1 - roll(2) : int(rand() * top)
}

# A record of one of the probes. Now and then its stamp goes back.
function record(  epid, text, place) {
    epid = 1 + roll(kinds)
    text = epid
    if (stamped && roll(16) > 0) {
        now += roll(40) - (roll(6) == 0 ? 60 : 0)
        if (now < 0) now = 0
        text = text "@" now
    }
    for (place = 1; place <= fields[epid]; place++) text = text " " sprintf("%.0f", value(width[epid, place]))
    return text
}

# The enablings of one to four probes; of one schedule in five none, which plays the default action.
function enable(file,  epid, place, bare) {
    kinds = 1 + roll(4)
    bare = roll(5) == 0
    for (epid = 1; epid <= kinds; epid++) {
        fields[epid] = bare ? 0 : roll(4)
        if (bare) continue
        printf "enable" > file
        for (place = 1; place <= fields[epid]; place++) {
            width[epid, place] = 2 ^ roll(4)
            printf " %d", width[epid, place] > file
        }
        print "" > file
    }
}

function turn(file,  cpu, spec, kind) {
    cpu = roll(cpus)
    spec = 1 + roll(specs)
    kind = roll(20)
    if (kind < 8) print "run", cpu, "trace", record() > file
    else if (kind < 10) print "run", cpu, "speculation" > file
    else if (kind < 14) print "run", cpu, "speculate", spec, record() > file
    else if (kind < 15) print "run", cpu, "commit", spec > file
    else if (kind < 16) print "run", cpu, "discard", spec > file
    else if (kind < 17) print "run", cpu, "service" > file
    else if (kind < 18) print "run consumer ask", cpu > file
    else if (kind < 19) print "run consumer take", cpu > file
    else print "run consumer giveback", cpu > file
}

function schedule(file,  turns) {
    cpus = 1 + roll(4)
    specs = 1 + roll(4)
    stamped = roll(2)
    now = roll(1000)
    printf "config %d %d %d %d 100 1000\n", cpus, specs, 16 * (1 + roll(12)), 16 * (1 + roll(8)) > file
    if (stamped) print "header 2" > file
    enable(file)
    for (turns = roll(60); turns > 0; turns--) turn(file)
    close(file)
}

BEGIN {
    srand(seed)
    for (number = 1; number <= count; number++) schedule(to "/" number ".schedule")
}
