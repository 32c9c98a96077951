# What happened in a run of the box (examples/box). Of each call it reads the line of the listing, a tab and the
# sentence; it follows who has which badge, which lookup the server is to answer, and who works on the abort of lookups,
# and writes one line, numbers before their names. All of it is at endpoint 0, LOOKUPS, but for the answers, which are
# sent to endpoint 1. A lookup's message is 65,536 times its writer, counted for each badge from 1, and more.
BEGIN { FS = "\t" }

# A badge is given when it is granted to a thread and no thread has it.
function granted(thread, badge, rights, t, others) {
    for (t in has)
        others += has[t] == badge
    delete has[thread]
    if (rights != 1)
        return
    given[badge] += !others
    has[thread] = badge
}

function aborts(thread, badge, code, t) {
    if (noted[thread] == badge) { # a note answers, and is used up
        delete noted[thread]
        notes++
        wrong += code != 0
        late += queued[badge] > 0 && given[badge] > ended[badge]
        return
    }
    delete noted[thread]
    joined += standing && !(thread in member)
    standing = 1
    member[thread] = 1
    if (code != 0)
        return
    for (t in member)
        if (t != thread)
            noted[t] = badge
    split("", member)
    standing = 0
    queued[badge] = 0 # nothing of the old writer is left
    ended[badge] = given[badge]
}

# The server has received a lookup.
function handed(badge, message) {
    asked = badge
    writer = int(message / 65536)
}

{
    caller = runs
    split($1, row, " ")
    split($2, word, " ")
    call = row[2]
    code = row[3]
    runs = row[7]
}
code > 2 { next }
call <= 2 { delete member[word[3]]; delete noted[word[3]]; delete has[word[3]] }
call == 13 && word[8] == "0" { granted(word[3], word[11] + 0, word[5]) }
call == 12 { aborts(caller, word[3], code) }
call >= 7 && call <= 11 { delete member[caller]; delete noted[caller] }
call == 7 && word[9] == "0:" && code == 0 { handed(word[6], word[3]) }
call == 7 && word[9] == "0:" && code == 1 { queued[word[6]]++ }
call == 8 && word[4] == "0:" && code == 0 { queued[row[5]]--; handed(row[5], row[6]) }
call == 7 && word[9] == "1:" { answered++; wrong += writer != given[asked] }
END {
    printf "%d lookups answered, %d wrong, %d aborts joined, %d notes used, %d of them with a new writer waiting\n",
        answered, wrong, joined, notes, late
}
