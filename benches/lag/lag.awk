# Reads the text of journals. For each core and each two queues of it that had work at once: the greatest lead of either over the
# other while both kept work, in virtual runtime, and the bound, which is the greatest charge of the one and of the other together, up
# to the last place where both had work. One line each: core D qQ ahead L qR ahead M bound B
# Where turns may have several polls (line 2 ends with `burst`), a queue is charged for its turn at the end, else for each poll. A parked job
# is no work. Each lead is compared with the charges up to its own place. The last line tells how many pairs were never above that: N pairs, M within
# the bound. The status is 1 if another one was. One pass; the memory is that of the jobs and of each two queues.

function shares_of(core, queue) { return (core, queue) in shares ? shares[core, queue] : 1000 }

function has_work(core, queue) { return entered[core, queue] > left[core, queue] }

function charge(time, weight) {
    if (time < 1) time = 1
    if (time > 1099511627775) time = 1099511627775
    return int((time * 1000 + weight - 1) / weight)
}

# The queue is there, so each two of it and another are looked at.
function meet(core, queue) {
    if ((core, queue) in met) return
    met[core, queue] = 1
    order[core, count[core]++] = queue
}

# From here on both queues have work: what each gained is counted from now.
function begin(core, one, two) {
    both[core, one, two] = 1
    difference[core, one, two] = low[core, one, two] = high[core, one, two] = 0
}

# The two queues of a pair after a note that is about one of them.
function look(core, queue, gain,    place, other, one, two) {
    for (place = 0; place < count[core]; place++) {
        other = order[core, place]
        if (other == queue) continue
        one = other + 0 < queue + 0 ? other : queue
        two = other + 0 < queue + 0 ? queue : other
        if (!(has_work(core, one) && has_work(core, two))) { delete both[core, one, two]; continue }
        if (!((core, one, two) in both)) { begin(core, one, two); continue }
        difference[core, one, two] += queue == one ? gain : -gain
        lead(core, one, two, difference[core, one, two])
    }
}

# The greatest rise and the greatest fall of the difference so far.
function lead(core, one, two, now,    most) {
    if (now < low[core, one, two]) low[core, one, two] = now
    if (now > high[core, one, two]) high[core, one, two] = now
    if (now - low[core, one, two] > ahead[core, one, two]) ahead[core, one, two] = now - low[core, one, two]
    if (high[core, one, two] - now > behind[core, one, two]) behind[core, one, two] = high[core, one, two] - now
    bound[core, one, two] = greatest[core, one] + greatest[core, two]
    most = now - low[core, one, two] > high[core, one, two] - now ? now - low[core, one, two] : high[core, one, two] - now
    if (most > bound[core, one, two]) above[core, one, two] = 1
}

# A note charges a queue.
function charged(core, queue, time,    cost) {
    cost = charge(time, shares_of(core, queue))
    if (cost > greatest[core, queue]) greatest[core, queue] = cost
    return cost
}

# A job leaves the queue's work for good or for a park, or comes to it.
function leaves(core, name,    queue) { queue = queue_of[name]; left[core, queue]++; return queue }

# The park of a job ends: it is work again.
function unpark(core, name,    queue) {
    queue = parked[core, name]
    delete parked[core, name]
    entered[core, queue]++
    look(core, queue, 0)
}

# What a poll costs its queue at once.
function polled(core, queue, time) { return bursts ? 0 : charged(core, queue, time) }

$1 == "cores" { bursts = $5 == "burst" }

($2 == "queue" || $2 == "shares") && $3 ~ /^q/ { shares[$1, substr($3, 2)] = $4 }

$2 == "took" {
    queue = substr($4, 2)
    queue_of[$3] = queue
    meet($1, queue)
    entered[$1, queue]++
    look($1, queue, 0)
}

$2 == "yield" || $2 == "stayed" { look($1, queue_of[$3], polled($1, queue_of[$3], $4)) }

$2 == "turned" { look($1, substr($3, 2), charged($1, substr($3, 2), $4)) }

$2 == "park" {
    parked[$1, $3] = queue_of[$3]
    queue = leaves($1, $3)
    look($1, queue, polled($1, queue, $4))
}

$2 == "woken" && ($1, $3) in parked { unpark($1, $3) }

($2 == "closed" || $2 == "coreclosed") && $NF == "return" {
    for (each in parked) {
        split(each, part, SUBSEP)
        if (part[1] == $1 && ($2 == "coreclosed" || $3 == "q" parked[each])) unpark(part[1], part[2])
    }
}

$2 == "done" {
    queue = leaves($1, $3)
    look($1, queue, polled($1, queue, $4))
    delete queue_of[$3]
}

$2 == "returned" && $3 in queue_of {
    queue = leaves($1, $3)
    look($1, queue, 0)
    delete queue_of[$3]
}

END {
    for (each in bound) {
        split(each, part, SUBSEP)
        printf "core %d q%d ahead %d q%d ahead %d bound %d\n", part[1], part[2], ahead[each], part[3], behind[each], bound[each] | "sort"
        pairs++
        if (!(each in above)) within++
    }
    close("sort")
    printf "%d pairs, %d within the bound\n", pairs, within
    exit within < pairs
}
