# The rules of a saved kernel, asked of the words and of all else that the text says, and the machine in words.

# ---- the words of the store, and what is read off them

# the word at an address; a word without a line is 0
function w(a) {
    return (a in word) ? word[a] : 0
}

function state_field(t) {
    return w(t + 4) - w(t + 4) % 4
}

function is_held(t) {
    return int(w(t + 4) / 2) % 2
}

function is_guest(id) {
    return id >= 5
}

# the words of the task block at t
function heads_of(t) {
    return is_guest(w(t + 1)) ? heads : 23
}

function state_name(field) {
    return field == 0 ? "runs" : field == 4 ? "waits" : field == 8 ? "was interrupted" : field == 12 ? "is dead" : "has no state"
}

function named_task(id) {
    return "task " id (id == 1 ? ", the shell" : id == 2 ? ", the reporter of faults" : id == 3 ? ", the console" : \
        id == 4 ? ", the file handler" : "")
}

# the one that runs, before a verb
function runner() {
    return running == 0 ? "nobody" : named_task(running) (running <= 4 ? "," : "")
}

# a word as the number of a sender
function sender_name(s) {
    return s > 4294967292 ? "device " (s - 4294967296) : "task " s
}

# ---- the root node, the task table and the end word

function check_root(    i) {
    if (w(109) != size) breaks("word 109 is the number of the words of the store, which has " size ", and it holds " w(109))
    if (w(111) != 1 && w(111) != 2) breaks("word 111 is the version, 1 or 2, and it holds " w(111))
    top = w(111) == 1 ? 20 : 63
    heads = w(111) == 1 ? 23 : 30
    most_modules = w(111) == 1 ? 1 : 8
    if (w(111) == 1 && size > 262144)
        breaks("word 111 says version 1, in which a store has 262144 words at most, and this one has " size)
    if (w(110) < 1 || w(110) > 1000000) breaks("word 110 is the period, from 1 to 1000000, and it holds " w(110))
    residents = w(112) != 0
    fixed(100, 120, "the address of the task table")
    fixed(103, 200, "the address of the first block")
    if (residents) fixed(112, 201, "the address of the words of the residents, or 0 where there are none,")
    for (i = 113; i <= 119; i++) fixed(i, 0, "a word of the root node that has no use")
    fixed(120, top, "the highest number of a task in version " w(111))
    for (i = 121 + top; i <= 183; i++) fixed(i, 0, "an entry of the task table after the highest number")
    fixed(size - 2, 0, "the end word")
}

function fixed(a, wanted, what) {
    if (w(a) != wanted) breaks("word " a " is " what " and has to hold " wanted ", and it holds " w(a))
}

# ---- blocks

function block_name(b) {
    return "the " (block_free[b] ? "free" : "used") " block at " block_start[b]
}

# The blocks from 200 up to the end word, in block_start[], block_size[] and block_free[].
function blocks_tile(    a, before) {
    a = 200
    before = "the first block begins at 200"
    while (a < size - 2) {
        if (w(a) < 2) breaks(before ", and no block begins there: word " a " holds " w(a))
        blocks++
        block_start[blocks] = a
        block_free[blocks] = w(a) % 2
        block_size[blocks] = w(a) - w(a) % 2
        block_at[a] = blocks
        a += block_size[blocks]
        before = block_name(blocks) " ends at " a
    }
    if (a != size - 2) breaks(before ", after the end word at " (size - 2))
}

# the block that has the word at p among its data, or 0
function block_with(p,    low, high, middle) {
    low = 1
    high = blocks
    while (low < high) {
        middle = int((low + high + 1) / 2)
        if (block_start[middle] <= p) low = middle
        else high = middle - 1
    }
    return block_start[low] < p && p < block_start[low] + block_size[low] ? low : 0
}

# At v the data of a used block begin, as large as the words 0 to u need.
function has_block(v, u, what,    b, need) {
    need = u + 2 + u % 2
    b = ((v - 1) in block_at) ? block_at[v - 1] : 0
    if (b == 0) breaks(what " has to begin the data of a used block, and no block begins at " (v - 1))
    if (block_free[b]) breaks(what " has to begin the data of a used block, and the block at " (v - 1) " is free")
    if (block_size[b] != need)
        breaks(what " needs a block of " need " words for the words 0 to " u ", and the block at " (v - 1) " has " block_size[b])
}

# ---- the lists and their ends

# Follows links from a head on. The nodes come into node[list, ..], and their number into nodes[list]. A list that comes into
# another one ends there: that one was followed already, and this is for claims to say.
function follow(list, kind, head, link, name,    p, n) {
    n = 0
    for (p = w(head); p != 0; p = w(p + link)) {
        if ((kind, p) in met) {
            if (met[kind, p] == list) breaks(name " has no end: it comes back to the " kind " at " p)
            if (shared == "")
                shared = kind == "packet" ? "the packet at " p " is on " name_of[met[kind, p]] " and on " that(name) \
                    : "the " kind " at " p " is in " name_of[met[kind, p]] " and in " that(name)
            break
        }
        met[kind, p] = list
        node[list, ++n] = p
    }
    nodes[list] = n
    name_of[list] = name
}

# the name of a second queue, or a second list
function that(name) {
    sub(/^the queue of /, "that of ", name)
    sub(/^the list of coroutines of /, "that of ", name)
    return name
}

function lists_end(    i, t, id) {
    follow("chain", "task block", 101, 0, "the chain of tasks")
    tasks = nodes["chain"]
    for (i = 1; i <= tasks; i++) {
        t = node["chain", i]
        id = w(t + 1)
        follow("queue " t, "packet", t + 3, 0, "the queue of task " id)
        follow("coroutines " t, "coroutine", t + 17, 2, "the list of coroutines of task " id)
    }
    follow("modules", "module", 104, 0, "the list of modules")
    for (i = 1; i <= nodes["modules"]; i++) {
        t = node["modules", i]
        if (t + 2 + w(t + 1) > size)
            breaks("the module at " t " names " count(w(t + 1), "hunk", "hunks") \
                ", and with their lengths it does not lie in the store of " size " words")
    }
    follow("clock", "packet", 105, 0, "the queue of the clock")
    follow("keyboard", "packet", 106, 0, "the queue of the keyboard")
    follow("output", "packet", 107, 0, "the queue of the output")
    if (residents) follow("pending", "packet", 270, 0, "the queue of reads that wait for a line")
}

# ---- the words that the kernel owns, each once

function claim(from, n, what,    a) {
    for (a = from; a < from + n; a++) {
        if (a >= size) breaks(what " does not lie in the store: it has word " a ", and the store has " size " words")
        if (a in owner) breaks("word " a " belongs to " owner[a] " and to " what)
        owner[a] = what
    }
}

function claim_queue(list,    i) {
    for (i = 1; i <= nodes[list]; i++) claim(node[list, i], 5, "the packet at " node[list, i] " on " name_of[list])
}

function words_are_apart(    i, j, t, c) {
    if (shared != "") breaks(shared)
    claim(100, 84, "the root node and the task table")
    claim(size - 2, 1, "the end word")
    for (i = 1; i <= blocks; i++) claim(block_start[i], 1, "the size of " block_name(i))
    for (i = 1; i <= tasks; i++) {
        t = node["chain", i]
        claim(t, heads_of(t), "the task block of task " w(t + 1) " at " t)
        claim_queue("queue " t)
        for (j = 1; j <= nodes["coroutines " t]; j++) {
            c = node["coroutines " t, j]
            claim(c, 10, "the coroutine at " c " of task " w(t + 1))
        }
    }
    for (i = 1; i <= nodes["modules"]; i++) {
        t = node["modules", i]
        claim(t, 2 + w(t + 1), "the module at " t)
    }
    claim_queue("clock")
    claim_queue("keyboard")
    claim_queue("output")
    if (residents) {
        claim(270, 1, "the head of the reads that wait for a line")
        claim_queue("pending")
        if (w(271) == minus_1) claim(271, 5, "the key packet at 271, which is on no queue")
        claim(276, 3, "the arguments of the key packet at 271")
    }
    reporter = 0
    for (i = 1; i <= tasks; i++) if (w(node["chain", i] + 1) == 2) reporter = 1
    if (residents && reporter && w(310) == minus_1) claim(310, 5, "the fault packet at 310, which is on no queue")
}

# ---- modules

function check_modules(    i, j, m, n) {
    for (i = 1; i <= nodes["modules"]; i++) {
        m = node["modules", i]
        n = 1 + w(m + 1)
        for (j = 1; j <= w(m + 1); j++) n += w(m + 1 + j)
        has_block(m, n, "the module at " m)
        is_module[m] = 1
    }
}

# ---- tasks

function check_tasks(    i, t, id, before) {
    for (i = 1; i <= tasks; i++) check_task(node["chain", i], w(node["chain", i] + 1))
    for (i = 1; i <= tasks; i++) {
        t = node["chain", i]
        id = w(t + 1)
        if (id in task_at) breaks("the task blocks at " task_at[id] " and " t " both have the number " id)
        task_at[id] = t
    }
    for (i = 2; i <= tasks; i++) {
        t = node["chain", i]
        before = node["chain", i - 1]
        if (w(t + 2) >= w(before + 2))
            breaks("priorities fall along the chain, and task " w(t + 1) " with " w(t + 2) " is after task " w(before + 1) \
                " with " w(before + 2))
    }
    for (id = 1; id <= 4; id++) {
        if (id != 2 && residents && !(id in task_at))
            breaks("word 112 says that there are residents, and " named_task(id) ", is not in the chain")
        if (!residents && (id in task_at)) breaks("word 112 says that there are no residents, and " named_task(id) ", is in the chain")
    }
}

function check_task(t, id,    field) {
    if (w(t + 2) < 1 || w(t + 2) > 10000) breaks("the priority of task " id " is " w(t + 2) ", and priorities are from 1 to 10000")
    if (w(t + 9) > top) breaks("the maker of task " id " is " w(t + 9) ", and the highest number of a task is " top)
    field = state_field(t)
    if (field > 12) breaks("the state word of task " id " at " (t + 4) " holds " w(t + 4) ", which is no state of a task")
    if (w(t + 13) > 255) breaks("the saved C of task " id " is " w(t + 13) ", and C is a byte")
    if (is_guest(id)) check_guest(t, id)
    else check_resident(t, id, field)
}

# the address of the i-th module of the task at t
function module_word(t, i) {
    return i == 1 ? w(t + 10) : w(t + 21 + i)
}

function check_guest(t, id,    i, n, m, fault) {
    if (id > top) breaks("the task block at " t " has the number " id ", and the highest number of a task is " top)
    has_block(t, heads + 1001 + w(t + 7), "the task block of task " id " at " t ", whose stack has the highest index " w(t + 7) ",")
    for (i = 1; i <= most_modules; i++) {
        m = module_word(t, i)
        if (m == 0) continue
        n++
        if (!(m in is_module)) breaks("module " i " of task " id " is said to be at " m ", and no module of the list is there")
    }
    if (n == 0) breaks("task " id " has no module")
    fault = w(t + 21)
    if (!is_fault_word(fault, w(t + 22)))
        breaks("the fault of task " id " is " fault " at " w(t + 22) ", which is none that is recorded")
    if (fault != 0 && !reporter) breaks("the fault of task " id " is " fault ", and there is no task 2 that reports faults")
}

function is_fault_word(fault, address) {
    if (fault == 0) return address == 0
    if (fault > 256) fault -= 256
    return fault <= 8 && fault != 6
}

function check_resident(t, id, field,    address, priority, i, name) {
    if (id == 0) breaks("the task block at " t " has the number 0, and tasks have numbers from 1 on")
    name = named_task(id) ", "
    address = id == 1 ? 201 : id == 2 ? 287 : id == 3 ? 224 : 247
    priority = id == 1 ? 1000 : id == 2 ? 3000 : id == 3 ? 6000 : 5000
    if (t != address) breaks(name "has its task block at " address ", and the one in the chain is at " t)
    if (w(t + 2) != priority) breaks(name "has the priority " priority ", and its task block says " w(t + 2))
    if (w(t + 10) != 0) breaks(name "has no module, and its task block names " w(t + 10))
    if (w(t + 7) != 0) breaks(name "has no stack, and the highest index of one is " w(t + 7))
    if (w(t + 21) != 0 || w(t + 22) != 0) breaks(name "meets no fault, and the words of one are " w(t + 21) " and " w(t + 22))
    for (i = 11; i <= 16; i++) if (w(t + i) != 0) breaks(name "has no saved registers, and " register[i - 10] " is " w(t + i))
    if (nodes["coroutines " t] > 0) breaks(name "has no coroutine, and one is at " node["coroutines " t, 1])
    if (w(t + 18) != 0 && w(t + 18) != t) breaks(name "has no coroutine, and one at " w(t + 18) " is said to run")
    if (field == 12) breaks(name "is never dead, and its state word is " w(t + 4))
    if (is_held(t)) breaks(name "is never held, and its state word is " w(t + 4))
}

# ---- the task table, and who is said to run

function check_table(    id, wanted) {
    for (id = 1; id <= top; id++) {
        wanted = (id in task_at) ? task_at[id] : 0
        if (w(120 + id) != wanted)
            breaks("word " (120 + id) " is the address of task " id \
                ", which " (wanted == 0 ? "is not in the chain" : "is at " wanted) ", and it holds " w(120 + id))
    }
}

function running_is_there(    i) {
    running = 0
    if (w(102) == 0) return
    for (i = 1; i <= tasks; i++) if (node["chain", i] == w(102)) running = w(w(102) + 1)
    if (running == 0) breaks("word 102 says that the task at " w(102) " runs, and no task of the chain is there")
}

# ---- coroutines

function check_coroutines(    i, j, t, id, c) {
    for (i = 1; i <= tasks; i++) {
        t = node["chain", i]
        id = w(t + 1)
        for (j = 1; j <= nodes["coroutines " t]; j++) {
            c = node["coroutines " t, j]
            has_block(c, w(c + 4), "the coroutine at " c " of task " id ", whose stack has the highest index " w(c + 4) ",")
            if (w(c + 4) < 16) breaks("the coroutine at " c " of task " id " has the highest index " w(c + 4) ", and it is 16 or more")
            coroutine_of[c] = t
        }
        check_active(t, id)
    }
}

# The active ones, from the one that runs outwards; the last has the task as its parent.
function check_active(t, id,    c, before, n) {
    before = 0
    for (c = w(t + 18); c != 0 && c != t; c = w(c + 1)) {
        if (!(c in coroutine_of) || coroutine_of[c] != t)
            breaks((before == 0 ? "the coroutine that runs in task " id : "the parent of the coroutine at " before " of task " id) \
                " is said to be at " c ", and the task has none there")
        if ((t, c) in is_active) breaks("the coroutine at " c " of task " id " is among its own parents")
        is_active[t, c] = 1
        before = c
    }
}

# ---- words of tasks and coroutines that follow from all these

function check_heads(    i) {
    for (i = 1; i <= tasks; i++) check_head(node["chain", i], w(node["chain", i] + 1))
}

function check_head(t, id,    n, stack, globals, i, j, c, gap) {
    n = nodes["queue " t]
    if (w(t + 4) % 2 != (n > 0))
        breaks("the state word of task " id " is " w(t + 4) ", so that " (n > 0 ? "no packet waits" : "packets wait") \
            ", and its queue has " count(n, "packet", "packets"))
    stack = is_guest(id) ? t + heads + 1001 : 0
    globals = is_guest(id) ? t + heads : 0
    if (w(t + 6) != stack) breaks("the stack of task " id " is at " stack ", and its task block says " w(t + 6))
    if (w(t + 8) != globals) breaks("the globals of task " id " are at " globals ", and its task block says " w(t + 8))
    for (i = 1; is_guest(id) && i <= most_modules; i++) {
        if (module_word(t, i) == 0) gap = gap ? gap : i
        else if (gap) breaks("task " id " has a module " i ", and no module " gap)
    }
    if (w(t + 18) == t) breaks("the root of task " id " runs, for which word " (t + 18) " is 0, and it holds " t)
    for (j = 1; j <= nodes["coroutines " t]; j++) {
        c = node["coroutines " t, j]
        check_coroutine_words(t, c, "the coroutine at " c " of task " id)
    }
}

function check_coroutine_words(t, c, name) {
    if ((t, c) in is_active) {
        if (w(c + 1) == 0) breaks(name " is active and has to have a parent, and its word 1 is 0")
    } else if (w(c + 1) != 0) breaks(name " is not active and has no parent, and its word 1 is " w(c + 1))
    if (w(c + 5) != c) breaks(name " has its own address in word 5, and it holds " w(c + 5))
    if (w(c + 7) != 0 || w(c + 8) != 0 || w(c + 9) != w(c + 3))
        breaks(name " has the bottom frame 0, 0 and its function " w(c + 3) ", and its words 7 to 9 are " w(c + 7) \
            ", " w(c + 8) " and " w(c + 9))
}

# ---- queued packets

function check_queues(    i, t, p, before) {
    for (i = 1; i <= tasks; i++) {
        t = node["chain", i]
        check_queue("queue " t, w(t + 1))
    }
    check_queue("clock", -1)
    check_queue("keyboard", -2)
    check_queue("output", -3)
    if (residents) check_queue("pending", 103)
    for (i = 2; i <= nodes["clock"]; i++) {
        p = node["clock", i]
        before = node["clock", i - 1]
        if (w(p + 4) < w(before + 4))
            breaks("due ticks never fall along the queue of the clock, and the packet at " p " is due at " w(p + 4) \
                ", after the one at " before ", which is due at " w(before + 4))
    }
    key_queued = ("packet", 271) in met
    if (residents && !key_queued && w(271) != minus_1)
        breaks("the key packet at 271 is on no queue, so that its link is " minus_1 ", and it is " w(271))
    fault_queued = ("packet", 310) in met
    if (reporter && !fault_queued && w(310) != minus_1)
        breaks("the fault packet at 310 is on no queue, so that its link is " minus_1 ", and it is " w(310))
}

# The packets of the queue of a task, a device or the pending reads, by number.
function check_queue(list, queue,    i, p, name) {
    for (i = 1; i <= nodes[list]; i++) {
        p = node[list, i]
        name = "the packet at " p " on " name_of[list]
        lodged(p, name)
        if (residents && p == 271) {
            check_key_packet(queue, name)
            continue
        }
        if (reporter && p == 310) check_fault_packet(queue, name)
        check_sender(queue, w(p + 1), name)
    }
}

# Its words are in one block, since none of them is the size of the next one.
function lodged(p, name,    b) {
    b = block_with(p)
    if (b == 0) breaks(name " has to have its words 0 to 4 among the data of a used block, and word " p " is in no block")
    if (block_free[b]) breaks(name " has to have its words 0 to 4 among the data of a used block, and " block_name(b) " has them")
}

function check_key_packet(queue, name) {
    if (queue == 3) {
        if (w(272) != minus_2) breaks(name " is the key packet, which comes from the keyboard, and its sender is " w(272))
    } else if (queue == -2) {
        if (w(272) != 3) breaks(name " is the key packet, which task 3 sends, and its sender is " w(272))
    } else breaks(name " is the key packet, which is at the keyboard, at the console or on no queue")
    if (w(273) != 0) breaks(name " is the key packet, which has the type 0, and it has " w(273))
    if (w(275) != 0) breaks(name " is the key packet, whose second result is 0, and it is " w(275))
}

function check_fault_packet(queue, name) {
    if (queue != 2) breaks(name " is the fault packet, which is on the queue of task 2 or on none")
    if (w(312) != 40) breaks(name " is the fault packet, which has the type 40, and it has " w(312))
    if (w(313) != 0 || w(314) != 0) breaks(name " is the fault packet, whose results are 0, and they are " w(313) " and " w(314))
}

function check_sender(queue, sender, name) {
    if (queue < 0) {
        if (!is_guest(sender)) breaks(name " has to be from a guest that is there, and its sender is " sender_name(sender))
    } else if (queue != 103 && is_guest(queue)) return
    if (!(sender in task_at))
        breaks(name " has to be from a " (queue < 0 ? "guest" : "task") " that is there, and its sender is " sender_name(sender))
}

# ---- the words of the residents that are of no list

function check_resident_words(    i) {
    if (!residents) return
    if (!key_queued) {
        if (w(272) != minus_2)
            breaks("the key packet at 271 is on no queue, so that its sender is the keyboard, " minus_2 ", and it is " w(272))
        if (w(273) != 0) breaks("the key packet at 271 has the type 0, and it has " w(273))
        if (w(275) != 0) breaks("the second result of the key packet at 271 is 0, and it is " w(275))
    }
    for (i = 276; i <= 278; i++) if (w(i) != 0) breaks("the arguments of the key packet at 271 are 0, and word " i " is " w(i))
    if (reporter && !fault_queued)
        for (i = 311; i <= 314; i++)
            if (w(i) != 0) breaks("the fault packet at 310 is on no queue, so that its words 1 to 4 are 0, and word " i " is " w(i))
}

# ---- what holds between steps

function is_ready(t,    field) {
    field = state_field(t)
    return !is_held(t) && (field == 0 || field == 8 || nodes["queue " t] > 0)
}

function numbers_agree(    ticks) {
    if (w(111) != version) breaks("word 111 says version " w(111) ", and the first line says " version)
    if (w(110) != period) breaks("word 110 says that the period is " w(110) ", and the TICK line says " period)
    ticks = int(steps / period)
    if (w(108) != ticks)
        breaks("word 108 says " count(w(108), "tick", "ticks") \
            ", and in " count(steps, "step", "steps") " with a period of " period " there are " ticks)
}

function first_runs(    i, t, id, first) {
    for (i = tasks; i >= 1; i--) if (is_ready(node["chain", i])) first = w(node["chain", i] + 1)
    first += 0
    if (first != running)
        breaks((first == 0 ? "no task is ready" : "the first task of the chain that is ready is " named_task(first)) \
            ", and word 102 says that " runner() " runs")
    for (i = 1; i <= tasks; i++) {
        t = node["chain", i]
        id = w(t + 1)
        if (state_field(t) == 0 && id != running)
            breaks(runner() " runs, and the state word of task " id " is " w(t + 4) ", that of one that runs")
        if (state_field(t) != 0 && id == running)
            breaks(runner() " runs, and its state word is " w(t + 4) ": it " state_name(state_field(t)))
    }
}

function check_registers(    i) {
    if (is_guest(running)) return
    for (i = 1; i <= 6; i++)
        if (value[i] != 0)
            breaks(runner() " runs, so that all registers are 0, and " register[i] " is " value[i])
}

function is_unreported(t) {
    return w(t + 21) >= 1 && w(t + 21) < 256
}

function check_faults(    i, t, unreported, sender) {
    if (!reporter) return
    for (i = tasks; i >= 1; i--) if (is_unreported(node["chain", i])) unreported = w(node["chain", i] + 1)
    if (!fault_queued && unreported)
        breaks("the fault of task " unreported " is not reported yet, and the fault packet at 310 is on no queue")
    if (fault_queued && !unreported)
        breaks("the fault packet at 310 is on the queue of task 2, and no task has a fault that is not reported yet")
    if (!fault_queued) return
    sender = w(311)
    if (!is_guest(sender) || !(sender in task_at) || !is_unreported(task_at[sender]))
        breaks("the fault packet at 310 is from " sender_name(sender) ", which has no fault that is not reported yet")
}

function check_console() {
    if (residents && finished && key_queued)
        breaks("the line of the console is finished, and the key packet at 271 is still on a queue")
    if (residents && !finished && !key_queued)
        breaks("the line of the console is not finished, and the key packet at 271 is on no queue")
    if (finished && residents && nodes["pending"] > 0)
        breaks("the line of the console is finished, and " count(nodes["pending"], "read still waits", "reads still wait") " for one")
    if (console_size > 120) breaks("the line of the console has " console_size " bytes, and it has 120 at most")
    if (!residents && (finished || console_size > 0)) breaks("there are no residents, and the CONSOLE line is not \"CONSOLE 0 :\"")
}

function check_shell(    i, open) {
    for (i = 1; i <= streams; i++) if (stream_number[i] == 17) open = 1
    if (open && mode != 3) breaks("stream 17 is open, and the shell types no file: its mode is " mode)
    if (!open && mode == 3) breaks("the shell types a file, and stream 17 is not open")
    if (mode == 2 && (awaited < 5 || awaited > top))
        breaks("the shell waits for task " awaited ", and guests have the numbers 5 to " top)
    if (shell_size > 120) breaks("the line of the shell has " shell_size " bytes, and it has 120 at most")
    if (!residents && (mode != 0 || shell_size > 0)) breaks("there are no residents, and the SHELL line is not \"SHELL 0 0 :\"")
}

function check_disc(    i, n) {
    if (files > 64) breaks("the disc has " files " files, and it has 64 at most")
    for (i = 1; i <= files; i++) n += int((file_size[i] + 511) / 512)
    if (n > 4096) breaks("the files take " n " sectors of 512 bytes, and the disc has 4096")
    for (i = 1; i <= streams; i++) check_stream(i, stream_number[i], stream_file[i], stream_position[i])
    if (!residents && streams > 0) breaks("there are no residents, and stream " stream_number[1] " is open")
}

function check_stream(i, k, name, position,    bytes, j) {
    if (!(name in number_of_file)) breaks("stream " k " is open on " name ", and there is no such file")
    bytes = file_size[number_of_file[name]]
    if (position > bytes) breaks("stream " k " is at " position " in " name ", which has " count(bytes, "byte", "bytes"))
    if (!stream_writes[i]) return
    if (position != bytes)
        breaks("stream " k " writes " name " and is at " position ", and one that writes is at the end, at " bytes)
    for (j = 1; j <= streams; j++)
        if (j != i && stream_file[j] "" == name "")
            breaks("stream " k " writes " name ", and stream " stream_number[j] " is open on that file, too")
    if (k == 17) breaks("stream 17, that of the shell, writes " name ", and it only reads")
}

function check_pipes(    i, k, name) {
    for (i = 1; i <= pipes; i++) {
        k = pipe_number[i]
        if (!pipe_reading[i] && !pipe_writing[i]) breaks("pipe " k " has no end that is open")
        if (pipe_writing[i] && !pipe_written[i])
            breaks("the end of pipe " k " that writes is open, and is said to have never been opened")
        if (pipe_held[i] > 1024) breaks("pipe " k " holds " pipe_held[i] " bytes, and it holds 1024 at most")
    }
    for (i = 1; i <= pipes; i++) {
        name = pipe_name[i]
        if (name in pipe_with) breaks("pipes " pipe_with[name] " and " pipe_number[i] " both have the name " name)
        pipe_with[name] = pipe_number[i]
    }
    if (pipes > 0 && !residents) breaks("there are no residents, and pipe " pipe_number[1] " is there")
    if (pipes > 0 && version == 1) breaks("in version 1 there are no pipes, and pipe " pipe_number[1] " is there")
}

function check_ahead() {
    if (length(ahead) > 256) breaks(length(ahead) / 2 " bytes are typed ahead, and 128 is the most")
}

# ---- all rules, in their order

function check_kernel() {
    check_root()
    blocks_tile()
    lists_end()
    words_are_apart()
    check_modules()
    check_tasks()
    check_table()
    running_is_there()
    check_coroutines()
    check_heads()
    if (residents) has_block(201, reporter ? 114 : 86, "task 1, with all words of the residents after it,")
    check_queues()
    check_resident_words()
    numbers_agree()
    first_runs()
    check_registers()
    check_faults()
    check_console()
    check_shell()
    check_disc()
    check_pipes()
    check_ahead()
}

# ---- the machine in words

function summary(    i, t, used, sum, free_sum, total, line) {
    print "version " version ", " (bare ? "a bare machine" : "with a kernel" (residents ? " and residents" : ", without residents")) \
        ": " size " words"
    print count(steps, "step is", "steps are") " taken" (bare ? "" : ", with a tick every " (period == 1 ? "step" : period " steps"))
    if (bare) print "the next instruction is at byte " value[6]
    else {
        print runner() " runs"
        line = ""
        for (i = 1; i <= tasks; i++) {
            t = node["chain", i]
            line = line (i > 1 ? ", " : "") w(t + 1) " " state_name(state_field(t)) (is_held(t) ? " and is held" : "") \
                (nodes["queue " t] > 0 ? " with " count(nodes["queue " t], "packet", "packets") : "")
        }
        print count(tasks, "task", "tasks") (tasks > 0 ? ": " : "") line
        for (i = 1; i <= blocks; i++) {
            if (block_free[i]) free_sum += block_size[i]
            else { used++; sum += block_size[i] }
        }
        print count(used + 0, "used block", "used blocks") " of " (sum + 0) " words, " \
            count(blocks - used, "free block", "free blocks") " of " (free_sum + 0) " words, " \
            count(nodes["modules"], "module", "modules")
        for (i = 1; i <= files; i++) total += file_size[i]
        print count(files + 0, "file", "files") " of " count(total + 0, "byte", "bytes") \
            ", " count(streams + 0, "open stream", "open streams") ", " \
            count(pipes + 0, "pipe", "pipes")
        print count(length(ahead) / 2, "byte is", "bytes are") " typed ahead" (ahead != "" ? ", " typed(ahead) : "") ", and " \
            count(keys + 0, "key is", "keys are") " still to come"
    }
    print count(go, "step is", "steps are") " to be taken"
}

# the bytes as text
function typed(hex,    i, n, text) {
    for (i = 1; i < length(hex); i += 2) {
        n = byte_of[substr(hex, i, 2)]
        text = text (n >= 32 && n <= 126 ? sprintf("%c", n) : n == 10 ? "\\n" : "?")
    }
    return "\"" text "\""
}
