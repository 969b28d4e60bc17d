/* lane.pml: how a lane is taken, in Promela for SPIN 6.5; tests/models plays it, and README.md beside this file says what is left out.
 * Each inline has the name of the C function that it models. A step is one instruction after which another thread, a handler of the same thread or a crash may come.
 *
 *   NT threads, NL lanes, NP paths; S0, S1, S2: what each thread does (see `T`); MAXUSERS: options.paths
 *   MEM 0: stores in order; 1: x86's store buffer, a FIFO of B stores a thread; 2: stores leave in any order, but for one place and for a release
 *   ROUNDS of the consumer; DRAINS: a round may be a flush, and the end drains too; ENDS_LATE: the tracer ends after its threads
 *   HANDLERS: so many runs of a signal's handler; CRASHES: so many threads may crash
 *   GIVEUP 1: each bounded wait may be over at any time; 0: none is, but where a thread crashed
 *   REFUSED 1: the system may refuse membarrier(2) from any time on; LOCKED: it isn't there at all
 *   SLEEPS: before each round the consumer sleeps where it would find nothing, until somebody stirs it
 *   KEEPS: at the end of its last path a thread may keep its lane, by one of KEEPERS flags; STARTS_KEPT: thread 0 does so from the start; KEEPS_ONCE: then alone
 *   WANTS: thread 1 makes nothing but a call on a lane that it claims or takes over, and gives that up
 *   FULLS: a call may find its buffer full, so that it begins the other one and wakes the consumer; batches are switched out, taken and given back
 *   USES_END, USES_PLAIN, HANDS: which calls the threads make, so that no other is compiled
 *   F_..: a planted fault
 */
#ifndef NT
#define NT 2
#endif
#ifndef NL
#define NL 1
#endif
#ifndef NP
#define NP 2
#endif
#ifndef B
#define B 4
#endif
#ifndef MEM
#define MEM 1
#endif
#ifndef HANDLERS
#define HANDLERS 0
#endif
#ifndef CRASHES
#define CRASHES 0
#endif
#ifndef ROUNDS
#define ROUNDS 1
#endif
#ifndef GIVEUP
#define GIVEUP 0
#endif
#ifndef REFUSED
#define REFUSED 0
#endif
#ifndef MAXUSERS
#define MAXUSERS 2
#endif
#ifndef S2
#define S2 0
#endif

/* The bits of a lane's state. */
#define HELD 1
#define GONE 2
#define SERVE 4
#define IDLE 8
#define SHARED 16
#define WANTED 32
#define KEEPER 64 /* times the flag by which its thread keeps it; two bits */
#define KEEPER_BITS 192
#define USER 256
#ifdef F_LOOK_NO_SHARED
#define LOOK (HELD|GONE|IDLE|WANTED)
#else
#define LOOK (HELD|GONE|IDLE|SHARED|WANTED)
#endif
#define NOBODY 9
#define CONSUMER 8
/* What a path came to. */
#define OPEN 0
#define KEPT 1
#define THROWN 2
#define SAVED 3
#define BY_STOP 4
/* A way into a lane. */
#define NOT_IN 0
#define ALONE 1
#define BY_LOCK 2

#ifdef LOCKED
#define START (IDLE|SHARED)
#define IS_LOCKED 1
#else
#define START IDLE
#define IS_LOCKED 0
#endif

/* ---- What is shared. ---- */

short st[NL] = START; bit ins[NL]; bit dat[NL]; /* a lane's state, `inside`, and its memory: one bit that each call turns */
byte oid[NL*NP]; byte otok[NL*NP]; bit oown[NL*NP]; /* the table and open[], written by whoever has the lane: a path's number and 1, its thread's and 1, .. */
bit eend[NP]; byte etok[NP]; bit eown[NP]; /* ended[]: a path that the consumer has ended, and its thread hasn't */
byte oleft[NL*NP]; bit left[NL]; /* set from outside the lane */
byte handed[NL]; bit of_locked = IS_LOCKED;
#ifdef KEEPS
bit flag_taken[NL*KEEPERS]; bit in_use[NL*KEEPERS]; /* uses[]: a flag is a thread's; that thread uses the lane */
#endif
/* A thread's stores that haven't left: place*4 + value*2 + release; place 1+l: inside, 1+NL+l: the lane's memory, after them uses[]. */
byte sb[NT*B]; byte bn[NT];

/* A path, which one thread has at a time, and a seat. Where no handler runs and no path is handed on they are a thread's own memory, which spares orders. */
#define PATHS byte plane[NP] = NOBODY; byte ptok[NP]; bit pown[NP]; bit pover[NP]; byte pplace[NP]
#define SEATS byte own[NT] = NOBODY; byte last[NT]; byte openc[NT]; bit busy[NT]; bit no_token[NT]; byte hands_on[NT]; byte keeper[NT]; bit plain[NT] = 1 /* keeper: the flag by which it keeps the lane that it had last, or 0; plain: it is the tracer's run */
#if HANDLERS > 0
SEATS;
#define OWN_SEATS
#else
#define OWN_SEATS ; SEATS
#endif
#if HANDLERS > 0 || defined(HANDS)
PATHS;
#define OWN_PATHS
#else
#define OWN_PATHS ; PATHS
#endif
#ifdef F_WAY_IN_SEAT
byte way_in[NT];
#endif

bit moved[NP]; /* a path that was handed on */
byte posted; bit fin[NT]; bit hrun[NT]; bit crashed[NT]; byte hleft = HANDLERS; byte cleft = CRASHES; bit anycrash;
bit cend; bit stuck[NL];
bit asleep; bit rung; /* the consumer says that it sleeps; somebody has rung since */
#ifdef FULLS
/* is_full; the next batch is asked for; there is a spare buffer, a batch that nobody has taken; the consumer has noted that the last one is back; a ring for a full buffer that wasn't heard. */
bit is_full[NL]; bit asked[NL] = 1; bit spare[NL] = 1; bit switched[NL]; bit is_back[NL] = 1; bit rung_full;
#endif

/* ---- What only the assertions look at. ---- */

byte gin[NL]; bit gdat[NL]; bit ggone[NL];              /* who is in the lane's memory; what stands there; whether it is freed */
byte fate[NP]; bit begun[NP]; byte glane[NP]; bit gleft[NP]; /* gleft: its end left it to the next one that has the lane */
byte gi; byte gj; bit gf;
#ifdef FULLS
bit old[NL]; bit old_out[NL]; bit full_out[NL]; /* the buffer that is filled, and the batch that is out, have something from before the round asked for it; the batch that is out was full */
#endif

#define CAN_GIVE_UP (GIVEUP || anycrash)

/* ---- Stores. ---- */

#define ENTRY(l,v,r) ((l)*4+(v)*2+(r))
inline apply(e) {
    if
    :: ((e)/4) <= NL -> ins[((e)/4)-1] = ((e)/2)%2
    :: ((e)/4) > NL && ((e)/4) <= 2*NL -> dat[((e)/4)-1-NL] = ((e)/2)%2
#ifdef KEEPS
    :: ((e)/4) > 2*NL -> in_use[((e)/4)-1-2*NL] = ((e)/2)%2
#endif
    fi
}
inline flush(t) {
    d_step { gi = 0; do :: gi < bn[t] -> apply(sb[(t)*B+gi]); sb[(t)*B+gi] = 0; gi++ :: else -> break od; bn[t] = 0; gi = 0 }
}
/* A locked instruction drains what its thread stored. The consumer has no FIFO: each of its stores stands before its next locked instruction. */
#if MEM == 0
#define DRAIN(t) skip
#define PUSH(t,l,v,r) apply(ENTRY(l,v,r))
#define HAS_ROOM(t) true
#else
#define DRAIN(t) flush(t)
#define PUSH(t,l,v,r) sb[(t)*B+bn[t]] = ENTRY(l,v,r); bn[t]++
#define HAS_ROOM(t) (bn[t] < B)
#endif
/* A load looks at its own thread's stores first. */
inline load(t, place, res) {
    gi = 0;
    do :: gi < bn[t] -> if :: (sb[(t)*B+gi]/4) == (place) -> res = (sb[(t)*B+gi]/2)%2 :: else fi; gi++ :: else -> break od; gi = 0
}
inline ld_inside(t, l, res) { d_step { res = ins[l]; load(t, 1+(l), res) } }
inline ld_data(t, l, res) { d_step { res = dat[l]; load(t, 1+NL+(l), res) } }

/* What a thread does by itself goes with one look at what is shared, so that there are fewer orders; but not where handlers run, which may come in between. */
#if HANDLERS > 0
#define A_ {
#define _A }
#else
#define A_ atomic {
#define _A }
#endif

/* A thread crashes here, and stands still for good. */
#if CRASHES > 0
#define MAY_CRASH(t) if :: atomic { cleft > 0 -> cleft--; crashed[t] = 1; anycrash = 1; posted = posted | (1 << t) }; goto dead :: skip fi;
#else
#define MAY_CRASH(t)
#endif

/* In the lane's memory: nobody else is, and what stands there is what the last one left. */
inline into(t, l) {
    assert(gin[l] == 0); assert(!ggone[l]); gin[l] = t+1;
#ifdef F_NO_ACQUIRE
    if :: pre != 2 -> d = pre :: else -> ld_data(t, l, d) fi; pre = 2;
#else
    ld_data(t, l, d);
#endif
    assert(d == gdat[l]); PUSH(t, 1+NL+(l), 1-d, 0); gdat[l] = 1-gdat[l]; d = 0
}

/* ---- include/dspec/tracer_record.h, body.h, lane.c: into a call and out of it. ---- */

inline dspec_tracer_enter_(t, l) {
#ifdef F_LOOK_FIRST
    s = st[l];
    atomic { HAS_ROOM(t) -> PUSH(t, 1+(l), 1, 0) };
#else
    atomic { HAS_ROOM(t) -> PUSH(t, 1+(l), 1, 0) };
#ifdef F_NO_ACQUIRE
    if :: ld_data(t, l, pre) :: pre = 2 fi;
#endif
    s = st[l];
#endif
    if
    :: atomic { (s & LOOK) == 0 && HAS_ROOM(t) -> in = ALONE; s = 0; into(t, l) }
    :: atomic { (s & LOOK) != 0 && HAS_ROOM(t) -> in = NOT_IN; pre = 2; s = 0; PUSH(t, 1+(l), 0, 1) }
    fi
#ifdef F_LEAVES_EARLY
    ; if :: in -> atomic { HAS_ROOM(t) -> PUSH(t, 1+(l), 0, 1) } :: else fi
#endif
}
inline dspec_tracer_leave_(t, l) {
    MAY_CRASH(t)
#ifdef F_LEAVES_EARLY
    atomic { gin[l] = 0 }
#else
#ifdef F_RELAXED_LEAVE
    atomic { HAS_ROOM(t) -> gin[l] = 0; PUSH(t, 1+(l), 0, 0) }
#else
    atomic { HAS_ROOM(t) -> gin[l] = 0; PUSH(t, 1+(l), 0, 1) }
#endif
#endif
}
inline lane_leave_locked(t, l) {
    MAY_CRASH(t)
#ifdef F_RELAXED_UNLOCK
    atomic { gin[l] = 0; st[l] = st[l] & ~HELD }
#else
    atomic { DRAIN(t); gin[l] = 0; st[l] = st[l] & ~HELD }
#endif
}

/* Each thread comes to an order, one by one: by membarrier(2), or by time where the system refuses that. */
inline order() {
#if REFUSED
    if :: of_locked = 1 :: skip fi;
#endif
#ifdef F_NO_ORDER
    skip
#else
    bi = 0; do :: bi < NT -> atomic { DRAIN(bi); bi++ } :: else -> bi = 0; break od
#endif
}

/* A call's wait is over by time, once at the most. In a handler each may be: it may wait for its own thread. */
#define IS_SPENT(t) (CAN_GIVE_UP || hrun[t])
#define SPEND assert(!spent); spent = 1

/* `ok` says whether its thread has left its call. */
inline is_left(t, l) {
#ifdef F_NO_IS_LEFT
    ok = 1
#else
#ifndef F_ORDER_FIRST
    order();
#endif
    MAY_CRASH(t)
    if
    :: ins[l] == 0 -> ok = 1
    :: atomic { ins[l] != 0 && IS_SPENT(t) -> SPEND; ok = 0 }
#ifdef F_NO_INSIDE
    :: ok = 1
#endif
    fi
#endif
}

/* ---- consumer.c: who wakes the consumer. ---- */

/* A caller has cleared IDLE before. */
inline consumer_stirs(t) {
    if
    :: asleep -> atomic { DRAIN(t); if :: asleep -> asleep = 0; x2 = 1 :: else fi }; if :: x2 -> rung = 1; x2 = 0 :: else fi
    :: else
    fi
}

#define TAKEN ((s & ~IDLE) | HELD | (alone -> SHARED : 0))

inline enter_alone(t, l) {
#if defined(SLEEPS) && defined(F_STIRS_FIRST)
    if :: s & IDLE -> consumer_stirs(t) :: else fi;
#endif
    if :: s & IDLE -> atomic { DRAIN(t); st[l] = st[l] & ~IDLE } :: else fi;
#if defined(SLEEPS) && !defined(F_STIRS_FIRST)
    if :: s & IDLE -> consumer_stirs(t) :: else fi;
#endif
    dspec_tracer_enter_(t, l)
}

/* `out` says that the patience is over. */
inline enter_locked(t, l) {
#ifdef F_ORDER_FIRST
    order();
#endif
    atomic { DRAIN(t);
        alone = (s >= USER && !(s & SHARED));
#ifdef SLEEPS
        was_idle = ((s & IDLE) != 0);
#endif
        if :: st[l] == s -> st[l] = TAKEN; cas = 1; if :: !alone -> in = BY_LOCK; into(t, l) :: else fi :: else -> cas = 0 fi; s = 0 };
#if defined(SLEEPS) && !defined(F_LOCK_STIRS_NOBODY)
    if :: cas && was_idle -> consumer_stirs(t) :: else fi;
#endif
    if
    :: cas && alone ->
        is_left(t, l);
        if
        :: atomic { ok -> in = BY_LOCK; ok = 0; into(t, l) }
        :: else ->
#ifndef F_KEEPS_LOCK
            atomic { DRAIN(t); st[l] = st[l] & ~(HELD|SHARED) };
#endif
#ifdef F_SECOND_ANEW
            skip
#else
            out = 1
#endif
        fi
    :: else
    fi;
    cas = 0; alone = 0; was_idle = 0
}

inline lane_enter_slowly(t, l) {
    in = NOT_IN; out = 0;
    do
    :: A_ s = st[l];
       if
       :: s & GONE -> out = 1
       :: !(s & GONE) && (s & (HELD|WANTED)) ->
            /* wait_on: until it is another state */
            if :: (st[l] & (HELD|WANTED)) == 0 || (st[l] & GONE) -> s = 0
            :: IS_SPENT(t) -> SPEND; out = 1
            fi
       :: else -> how = ((own[t] != l || (s & SHARED)) -> BY_LOCK : ALONE)
       fi _A;
       if
       :: how == BY_LOCK -> how = NOT_IN; enter_locked(t, l)
       :: how == ALONE -> how = NOT_IN; enter_alone(t, l)
       :: how == NOT_IN
       fi;
       if :: in || out -> break :: !in && !out -> skip :: !in && !out && CAN_GIVE_UP -> break fi
    od;
    A_ out = 0; s = 0; spent = 0 _A
}

inline lane_enter(t, l) {
    in = NOT_IN;
    if :: own[t] == l -> dspec_tracer_enter_(t, l) :: else fi;
    if :: !in -> lane_enter_slowly(t, l) :: else fi
#ifdef F_WAY_IN_SEAT
    ; way_in[t] = in
#endif
}
inline lane_leave(t, l) {
#ifdef F_WAY_IN_SEAT
    if :: way_in[t] == BY_LOCK -> lane_leave_locked(t, l) :: else -> dspec_tracer_leave_(t, l) fi
#else
#ifdef F_LEAVES_BY_SEAT
    if :: own[t] != l -> lane_leave_locked(t, l) :: else -> dspec_tracer_leave_(t, l) fi
#else
    if :: in == BY_LOCK -> lane_leave_locked(t, l) :: else -> dspec_tracer_leave_(t, l) fi
#endif
#endif
}

/* A handler that comes in between may begin a path or end one, so an answer yes is looked at again where the seat has another lane by then. */
inline seat_is_in(t, res) {
    do
    :: busy[t] -> res = 1; break
    :: else -> was_own = own[t];
        if :: was_own != NOBODY -> ld_inside(t, was_own, res) :: else -> res = 1-plain[t] fi;
#ifdef F_ASKS_ONCE
        break
#else
        if :: res == 0 || own[t] == was_own -> break :: else fi
#endif
    od;
    was_own = NOBODY
}
/* x says 0 where it is in; but for a handler it always is. */
inline seat_enter(t) { A_ seat_is_in(t, x); if :: x == 0 -> busy[t] = 1 :: else -> assert(_pid >= NT) fi _A }
/* So many paths are open as its thread began on its own lane and neither ended nor counts as others' ends. */
inline assert_open(t) {
    gj = 0; gi = 0;
    if
    :: own[t] != NOBODY ->
        do :: gj < NP -> if :: oid[own[t]*NP+gj] != 0 && oown[own[t]*NP+gj] -> gi++ :: else fi; if :: eend[gj] && glane[gj] == own[t] && eown[gj] -> gi++ :: else fi; gj++ :: else -> break od;
        assert(openc[t] == gi + handed[own[t]])
    :: else
    fi; gj = 0; gi = 0
}
inline seat_leave(t) { atomic { assert_open(t); busy[t] = 0 } }
inline seat_owns(t, l) { own[t] = l; plain[t] = (l == NOBODY) }

#ifdef FULLS
/* ---- session.c, path.c: full buffers. ---- */

/* `sealed` says whether the lane has switched. */
inline lane_serve(l, since_full) {
    atomic {
        if
        :: asked[l] && spare[l] -> assert(is_back[l]); asked[l] = 0; spare[l] = 0; switched[l] = 1; old_out[l] = old[l]; old[l] = 0; full_out[l] = since_full; sealed = 1
        :: else -> sealed = 0
        fi }
}
inline consumer_writes(t) { atomic { DRAIN(t); rung_full = 1 } }
inline lane_makes_room(t, l) {
    lane_serve(l, 1);
    if
#ifdef F_FULL_IS_RUNG_FIRST
    :: sealed -> consumer_writes(t); is_full[l] = 1; sealed = 0
#else
    :: sealed -> is_full[l] = 1; consumer_writes(t); sealed = 0
#endif
    :: else
    fi
}
/* Whether there is no room is left open; and of a record in its caller, which is made once more then, whether there is some in the other buffer. */
#define MAY_FILL(t, l) if :: lane_makes_room(t, l) :: skip fi
#define MAY_TURN(t, l) if :: lane_makes_room(t, l); if :: done = 0 :: skip fi :: skip fi
#else
#define MAY_FILL(t, l) skip
#define MAY_TURN(t, l) skip
#endif

/* In the call. */
inline serve_if_asked(t, l) {
#ifdef FULLS
    if
    :: st[l] & SERVE -> lane_serve(l, 0);
        if
#ifdef F_SERVED_UNSWITCHED
        :: true
#else
        :: sealed
#endif
            -> if :: atomic { DRAIN(t); st[l] = st[l] & ~SERVE } :: skip fi; sealed = 0 /* something of the lane may be left */
        :: else
        fi
    :: else
    fi
#else
    if :: st[l] & SERVE -> atomic { DRAIN(t); st[l] = st[l] & ~SERVE } :: else fi
#endif
}

/* ---- lane.c: which lane. ---- */

#define CLAIMED (of_locked -> s : (s & ~SHARED))

#ifdef KEEPS
#define RESTS(t) (keeper[t]*KEEPER + 2*USER)
#define FLAG_OF(l, k) ((l)*KEEPERS+(k)-1)
#define PUSH_USE(t, l, v, r) PUSH(t, 1+2*NL+FLAG_OF(l, keeper[t]), v, r)

inline flag_free(t, l) { atomic { DRAIN(t); in_use[FLAG_OF(l, keeper[t])] = 0; flag_taken[FLAG_OF(l, keeper[t])] = 0 } }
/* Whether it is kept is left open, where it could be; it is in use until it rests. is: its state as long as nobody is in the way. */
inline lane_keeps(t, l, is) {
#ifdef KEEPS_ONCE
    skip
#else
    if
    :: atomic { DRAIN(t); gj = 0;
           do
           :: gj < KEEPERS && keeper[t] == 0 -> if :: !flag_taken[(l)*KEEPERS+gj] -> flag_taken[(l)*KEEPERS+gj] = 1; in_use[(l)*KEEPERS+gj] = 1; keeper[t] = gj+1 :: else fi; gj++
           :: else -> break
           od; gj = 0 };
       if
       :: keeper[t] != 0 ->
            atomic { DRAIN(t); assert((is) == 0 || handed[l] == 0);
#ifdef F_KEEPS_UNCOMPARED
                st[l] = RESTS(t); cas = 1
#else
                if :: st[l] == (is) -> st[l] = RESTS(t); cas = 1 :: else fi
#endif
            };
            if :: cas -> handed[l] = 0 :: else -> flag_free(t, l); keeper[t] = 0 fi
       :: else
       fi
    :: skip
    fi
#endif
}
/* `cas` says whether. but: bits that it doesn't look at. */
#define ANYONE (HELD|GONE|SERVE|IDLE|WANTED)
inline lane_is_kept(t, l, but) {
#ifdef F_KEPT_LOOK_FIRST
    s = st[l];
    atomic { HAS_ROOM(t) -> PUSH_USE(t, l, 1, 0) };
#else
    atomic { HAS_ROOM(t) -> PUSH_USE(t, l, 1, 0) };
    s = st[l];
#endif
#ifdef F_KEPT_UNSEEN
    cas = 1;
#else
    if :: (s & ~(but)) == RESTS(t) -> cas = 1 :: else -> atomic { HAS_ROOM(t) -> PUSH_USE(t, l, 0, 1) } fi;
#endif
    s = 0
}
/* The same, where it is the thread's own then. */
inline lane_resumes(t, l, but) {
#ifndef F_RESUMES_UNSAID
    A_ plain[t] = 0 _A;
#endif
    lane_is_kept(t, l, but);
    if :: cas -> A_ seat_owns(t, l) _A :: else -> A_ plain[t] = 1 _A fi
}
/* The thread keeps the lane no longer that it had last: `kept` says whether it did until now. */
inline lane_unkeep(t, gone) {
    do
    :: s = st[last[t]];
       if
       :: (s & KEEPER_BITS) == keeper[t]*KEEPER ->
            atomic { DRAIN(t); if :: st[last[t]] == s -> st[last[t]] = s - keeper[t]*KEEPER - (gone)*USER; kept = 1 :: else fi };
            if :: kept -> flag_free(t, last[t]); break :: else fi
#ifdef F_UNKEEPS_AT_ONCE
       :: (s & KEEPER_BITS) != keeper[t]*KEEPER -> flag_free(t, last[t]); break
#else
       :: (s & KEEPER_BITS) != keeper[t]*KEEPER && (s & (HELD|GONE)) != HELD -> flag_free(t, last[t]); break
       :: (s & KEEPER_BITS) != keeper[t]*KEEPER && (s & (HELD|GONE)) == HELD ->
            /* wait_on; a flag that nobody has answered for stays taken */
            if :: (st[last[t]] & (HELD|GONE)) != HELD || (st[last[t]] & KEEPER_BITS) == keeper[t]*KEEPER :: IS_SPENT(t) -> SPEND; break fi
#endif
       fi
    od;
    A_ keeper[t] = 0; s = 0; spent = 0 _A
}
/* A lane that its thread keeps and doesn't use becomes another's own: `on` says so. */
inline takes_over(t, l) {
    s = st[l];
    if
    :: (s & KEEPER_BITS) != 0 && s/USER == 2 && !(s & (HELD|GONE|WANTED)) && !in_use[FLAG_OF(l, (s & KEEPER_BITS)/KEEPER)] ->
        k = (s & KEEPER_BITS)/KEEPER;
#ifdef F_OVER_ORDER_FIRST
        order();
#endif
        atomic { DRAIN(t); if :: st[l] == s -> st[l] = (CLAIMED & ~KEEPER_BITS) | HELD; cas = 1 :: else fi };
        if
        :: cas ->
#if !defined(F_OVER_NO_ORDER) && !defined(F_OVER_ORDER_FIRST)
            order();
#endif
            MAY_CRASH(t)
            if
#ifdef F_OVER_UNASKED
            :: true
#else
            :: !in_use[FLAG_OF(l, k)]
#endif
                -> assert(keeper[t] == 0); A_ handed[l] = 0; last[t] = l; seat_owns(t, l); on = l _A; atomic { DRAIN(t); st[l] = st[l] & ~HELD }
            :: in_use[FLAG_OF(l, k)] ->
#ifdef F_OVER_NOT_BACK
                atomic { DRAIN(t); st[l] = st[l] - HELD }
#else
                atomic { DRAIN(t); st[l] = st[l] + k*KEEPER - HELD }
#endif
            fi
        :: else
        fi;
        A_ k = 0; cas = 0 _A
    :: else
    fi;
    s = 0
}
#endif

/* With the last path that its thread began there a lane is nobody's own, or kept. */
inline lane_rests(t, l, isown) {
#ifdef KEEPS
    cas = 0;
#ifdef F_RESTS_EARLY
    if :: isown && keeper[t] != 0 -> atomic { HAS_ROOM(t) -> PUSH_USE(t, l, 0, 1) } :: else fi;
#endif
    if
    :: isown && openc[t] == 1 && keeper[t] != 0 -> cas = 1
    :: isown && openc[t] == 1 && keeper[t] == 0 -> lane_keeps(t, l, 2*USER)
    :: else
    fi;
    if :: cas -> A_ openc[t] = 0; seat_owns(t, NOBODY) _A; atomic { HAS_ROOM(t) -> PUSH_USE(t, l, 0, 1) } :: else fi
#else
    skip
#endif
}
inline lane_path_off(t, l, isown) {
    lane_rests(t, l, isown);
    if :: cas -> cas = 0 :: else -> lane_count_off(t, l, isown) fi
}
inline lane_count_off(t, l, isown) {
    atomic { DRAIN(t); users = 1;
        if
        :: isown -> assert(openc[t] > 0); openc[t]--;
#ifdef F_OPEN_TWICE
            openc[t]--;
#endif
            if
            :: openc[t] == 0 ->
#ifndef F_GIVEN_UP_TWICE
                seat_owns(t, NOBODY);
#endif
                users = 2
            :: else
            fi
        :: else
        fi;
        st[l] = st[l] - users*USER; assert(st[l] >= 0); users = 0 }
}


/* `on` says which. */
inline claim(t) {
    do
    :: i < NL ->
        s = st[(last[t]+i)%NL];
        do
        :: s < USER && !(s & GONE) ->
            atomic { DRAIN(t);
                if
                :: st[(last[t]+i)%NL] == s -> on = (last[t]+i)%NL; st[on] = CLAIMED + 2*USER
                :: else -> s = st[(last[t]+i)%NL]
                fi };
            if :: on != NOBODY -> A_ handed[on] = 0; last[t] = on; seat_owns(t, on) _A; break :: else fi
        :: else -> break
        od;
        if :: on != NOBODY -> break :: else -> i++ fi
    :: else -> break
    od;
    A_ i = 0; s = 0 _A;
#ifdef KEEPS
    do
    :: i < NL && on == NOBODY -> takes_over(t, (last[t]+i)%NL); i++
    :: else -> break
    od;
    i = 0
#endif
}
inline take_back(t) {
    atomic { assert(openc[t] >= handed[own[t]]); openc[t] = openc[t] - handed[own[t]]; handed[own[t]] = 0 };
    if
    :: openc[t] == 0 ->
        on = own[t];
#ifdef KEEPS
        if :: keeper[t] != 0 -> lane_unkeep(t, 1); kept = 0 :: else -> atomic { DRAIN(t); st[on] = st[on] - USER; assert(st[on] >= 0) } fi;
#else
        atomic { DRAIN(t); st[on] = st[on] - USER; assert(st[on] >= 0) };
#endif
        A_ seat_owns(t, NOBODY) _A;
        hands_on[t] = 1; on = NOBODY
    :: else
    fi
}
/* x: whether it has room; `on` says so too. */
inline lane_shared(t, l) {
    A_ if :: st[l]/USER <= MAXUSERS -> on = l; x = 1 :: else -> on = NOBODY; x = 0 fi _A;
    if :: x -> atomic { DRAIN(t); st[on] = st[on] + USER; x = 0 } :: else fi
}
/* `i` is the lane that the fewest are on. */
inline least() {
    i = 0;
#if NL > 1
    if :: st[1]/USER < st[0]/USER -> i = 1 :: else fi
#endif
}
inline lane_for_path(t) {
    on = NOBODY; i = 0;
#ifndef F_NOT_TAKEN_BACK
    if :: own[t] != NOBODY && handed[own[t] % NL] != 0 -> take_back(t) :: else fi;
#endif
#ifdef KEEPS
    if
    :: own[t] == NOBODY && keeper[t] != 0 ->
        /* is_own_again */
        assert(hands_on[t] == 0);
        lane_resumes(t, last[t], ANYONE);
        if :: cas -> cas = 0; kept = 1 :: else -> lane_unkeep(t, 0) fi;
        if :: kept -> A_ on = last[t]; seat_owns(t, on); kept = 0 _A :: else fi
    :: else
    fi;
#endif
    if
    :: own[t] == NOBODY && hands_on[t] != 0 -> hands_on[t]--
    :: own[t] == NOBODY && hands_on[t] == 0 -> claim(t)
    :: else
    fi;
    if
    :: on == NOBODY ->
        A_ if :: own[t] != NOBODY && st[own[t] % NL]/USER <= MAXUSERS -> i = own[t] :: else -> least() fi _A;
        lane_shared(t, i)
    :: else
    fi;
    i = 0
}

/* ---- path.c ---- */

/* Under the lane; `noted` says whether there was a place. */
inline note(t, l, p) {
    gj = 0; noted = 0;
    do
    :: gj < NP && gj < MAXUSERS ->
        if
        :: oid[(l)*NP+gj] == 0 -> oid[(l)*NP+gj] = p+1; otok[(l)*NP+gj] = t+1; oown[(l)*NP+gj] = isown; pplace[p] = gj; noted = 1; break
        :: else -> gj++
        fi
    :: else -> break
    od; gj = 0
}

/* note, and what a path knows of itself */
inline open_on(t, l, p) {
    note(t, l, p);
    if :: noted -> plane[p] = l; pown[p] = isown; ptok[p] = (isown -> t+1 : 0); begun[p] = 1; glane[p] = l :: else fi
}

/* tries NL+1: it is over */
inline begin(t, p) {
    do
    :: tries <= NL ->
        if :: tries == 0 -> lane_for_path(t) :: else -> lane_shared(t, tries-1) fi;
        if
        :: on == NOBODY -> tries++
        :: else ->
            A_ isown = (own[t] == on); openc[t] = openc[t] + isown; noted = 0 _A;
            lane_enter(t, on);
            if
            :: in -> atomic { open_on(t, on, p) }; lane_leave(t, on)
            :: else -> tries = NL
            fi;
            if :: noted -> tries = NL+1 :: else -> lane_path_off(t, on, isown); tries++ fi
        fi;
        A_ in = 0; isown = 0; on = NOBODY _A
    :: else -> break
    od;
    A_ if :: noted -> skip :: else -> pover[p] = 1 fi; noted = 0; tries = 0 _A
}

/* `cas` says whether. */
inline lane_claim_last(t, l) {
    atomic { DRAIN(t); if :: st[l] == 0 -> st[l] = 2*USER; cas = 1 :: else -> cas = 0 fi };
    if :: cas -> handed[l] = 0 :: else fi
}
/* `done` says whether. */
inline begin_on_last(t, p) {
    if
    :: plane[p] == NOBODY && plain[t] && hands_on[t] == 0 ->
        on = last[t];
#ifdef KEEPS
        if :: keeper[t] != 0 -> lane_resumes(t, on, 0) :: else -> lane_claim_last(t, on) fi;
#else
        lane_claim_last(t, on);
#endif
        if
        :: cas ->
            A_ cas = 0; seat_owns(t, on); openc[t] = 1; isown = 1; noted = 0; in = NOT_IN _A;
            dspec_tracer_enter_(t, on);
            if
            :: in -> atomic { open_on(t, on, p) }; dspec_tracer_leave_(t, on); done = noted
            :: else
            fi;
#ifndef F_STAYS_ON_LAST
            if :: done -> skip :: else -> lane_path_off(t, on, 1) fi
#endif
        :: else
        fi;
        A_ in = 0; isown = 0; noted = 0; on = NOBODY _A
    :: else
    fi
}
inline begin_quickly(t, p) {
    if
    :: !busy[t] -> A_ busy[t] = 1 _A; begin_on_last(t, p); seat_leave(t)
    :: else
    fi
}

inline go_on(t, p) {
    on = plane[p];
    lane_enter(t, on);
    if
    :: in ->
        /* adopt */
        atomic { if
        :: oid[on*NP+pplace[p]] == p+1 -> otok[on*NP+pplace[p]] = t+1; ptok[p] = ((pown[p] && own[t] == on) -> t+1 : 0)
        :: else -> if :: !eend[p] -> pover[p] = 1; ptok[p] = 0 :: else fi
        fi };
        lane_leave(t, on)
    :: else
    fi;
    A_ in = 0; on = NOBODY _A
}

/* `done` says whether. One that is made once more, in another speculation of its path, is two records here. */
inline dspec_path_try_(t, p) {
    if
    :: ptok[p] == t+1 && !no_token[t] ->
        A_ on = plane[p]; ld_inside(t, on, x) _A;
        if
        :: x == 0 -> dspec_tracer_enter_(t, on); if :: in -> dspec_tracer_leave_(t, on); done = 1 :: else fi
        :: else
        fi;
        A_ in = 0; x = 0; on = NOBODY _A
    :: else
    fi
}
inline put_slowly(t, p) {
    if
    :: !pover[p] ->
        seat_enter(t);
        if :: x == 0 -> if :: plane[p] == NOBODY -> begin(t, p) :: else -> go_on(t, p) fi; seat_leave(t) :: else fi;
        x = 0
    :: else
    fi
}
inline dspec_path_put_slowly_(t, p) {
    if :: !pover[p] -> begin_quickly(t, p) :: else fi;
    if :: !done -> put_slowly(t, p) :: else fi
}
inline dspec_path_record(t, p) {
    dspec_path_try_(t, p);
    if :: !done -> dspec_path_put_slowly_(t, p) :: else fi;
    done = 0
}

inline decide(l, at, what) {
    if :: oid[(l)*NP+(at)] == 0 -> skip :: else -> assert(fate[oid[(l)*NP+(at)]-1] == OPEN); fate[oid[(l)*NP+(at)]-1] = what fi
}

/* Throws away a path of a lane that the caller has. */
inline throw_one(l, at) {
    decide(l, at, THROWN);
    if :: oown[(l)*NP+(at)] -> handed[l]++ :: else fi;
    oid[(l)*NP+(at)] = 0
}
/* Which one is left says its number: what has its place later isn't it. */
/* What the consumer has ended is in its list no longer. */
inline take_ended(l, p) { eend[p] = 0; if :: eown[p] -> handed[l]++ :: else fi }
inline leave_after(l, p) {
    if
    :: st[l] & GONE
    :: else ->
#ifndef F_NOT_LEFT_AFTER
        atomic { oleft[(l)*NP+pplace[p]] = p+1; gleft[p] = 1 }; left[l] = 1
#else
        gleft[p] = 1
#endif
    fi
}
/* For whoever has the lane; the consumer alone calls it. */
inline path_throw_left(l) {
    if
    :: !left[l]
    :: else -> left[l] = 0;
        do
        :: k < NP ->
#ifdef F_LEFT_LOST
            mark = oleft[(l)*NP+k];
            if :: mark != 0 -> oleft[(l)*NP+k] = 0 :: else fi;
#else
            atomic { mark = oleft[(l)*NP+k]; oleft[(l)*NP+k] = 0 };
#endif
#ifdef F_LEFT_BY_PLACE
            atomic { if :: mark != 0 && oid[(l)*NP+k] != 0 -> assert(gleft[oid[(l)*NP+k]-1]); throw_one(l, k); users++ :: else fi; mark = 0; k++ }
#else
            atomic { if
                :: mark != 0 && oid[(l)*NP+k] == mark -> assert(gleft[mark-1]); throw_one(l, k); users++
                :: mark != 0 && oid[(l)*NP+k] != mark && eend[mark-1] -> take_ended(l, mark-1); users++
                :: else
                fi; mark = 0; k++ }
#endif
        :: else -> k = 0; break
        od;
        atomic { st[l] = st[l] - users*USER; assert(st[l] >= 0); users = 0 }
    fi
}

inline end(t, p) {
    A_ on = plane[p]; isown = (pown[p] && own[t] == on); pover[p] = 1; ptok[p] = 0 _A;
    lane_enter(t, on);
    if
    :: in ->
        atomic { x = 0; if :: oid[on*NP+pplace[p]] == p+1 -> otok[on*NP+pplace[p]] = t+1; decide(on, pplace[p], KEPT); x = 1 :: else fi };
        if
        :: x ->
            MAY_FILL(t, on);
            serve_if_asked(t, on);
            atomic { if :: oown[on*NP+pplace[p]] != isown -> handed[on]++ :: else fi; oid[on*NP+pplace[p]] = 0 };
            lane_leave(t, on);
#ifdef F_OFF_TWICE
            lane_path_off(t, on, isown);
#endif
            lane_path_off(t, on, isown)
        :: else ->
            /* end_late */
            atomic { x = eend[p]; if :: x -> eend[p] = 0; if :: eown[p] != isown -> handed[on]++ :: else fi :: else fi };
            lane_leave(t, on);
            if :: x -> lane_path_off(t, on, isown) :: else fi
        fi
    :: else -> leave_after(on, p)
    fi;
    A_ x = 0; in = 0; isown = 0; on = NOBODY _A
}
inline end_slowly(t, p) {
    seat_enter(t);
    if :: x == 0 -> end(t, p); seat_leave(t) :: else fi;
    x = 0
}
/* `done` says whether. */
inline end_on_own(t, p) {
    if
    :: own[t] == plane[p] ->
        A_ on = plane[p]; in = NOT_IN; ld_inside(t, on, x) _A;
        if :: x == 0 -> dspec_tracer_enter_(t, on) :: else fi;
        if
        :: in ->
            atomic { x = 0; if :: oid[on*NP+pplace[p]] == p+1 -> decide(on, pplace[p], KEPT); x = 1 :: else fi };
            if
            :: x ->
                MAY_FILL(t, on);
                A_ pover[p] = 1; ptok[p] = 0 _A;
                serve_if_asked(t, on);
                atomic { if :: !oown[on*NP+pplace[p]] -> handed[on]++ :: else fi; oid[on*NP+pplace[p]] = 0 }
            :: else
            fi;
            dspec_tracer_leave_(t, on);
#ifdef F_OFF_TWICE
            if :: x -> lane_path_off(t, on, 1) :: else fi;
#endif
            if :: x -> lane_path_off(t, on, 1); done = 1 :: else fi
        :: else
        fi;
        A_ x = 0; in = 0; on = NOBODY _A
    :: else
    fi
}
inline end_quickly(t, p) {
    if
    :: ptok[p] == t+1 && !no_token[t] && !busy[t] -> A_ busy[t] = 1 _A; end_on_own(t, p); seat_leave(t)
    :: else
    fi
}
inline ends(t, p) {
    if
    :: plane[p] == NOBODY -> pover[p] = 1
    :: plane[p] != NOBODY && !pover[p] -> end_quickly(t, p); if :: !done -> end_slowly(t, p) :: else fi; done = 0
    :: else
    fi
}

/* On the lane that the thread keeps, without a lock. `done` says whether. */
#ifdef KEEPS
#ifdef F_ALONE_NO_INSIDE
#define ALONE_IN(t) atomic { in = ALONE; into(t, on) }
#define ALONE_OUT(t) atomic { HAS_ROOM(t) -> gin[on] = 0 }
#endif
#ifdef F_ALONE_LOOKS_ONCE
#define ALONE_IN(t) atomic { HAS_ROOM(t) -> PUSH(t, 1+on, 1, 0) }; atomic { HAS_ROOM(t) -> in = ALONE; into(t, on) }
#endif
#ifndef ALONE_IN
#define ALONE_IN(t) dspec_tracer_enter_(t, on)
#endif
#ifndef ALONE_OUT
#define ALONE_OUT(t) dspec_tracer_leave_(t, on)
#endif
#define ALONE_RESTS(t) atomic { HAS_ROOM(t) -> PUSH_USE(t, on, 0, 1) }
inline dspec_tracer_try_(t) {
    if
    :: plain[t] ->
        A_ plain[t] = 0;
#ifdef F_ALONE_OWN_UNASKED
        on = (keeper[t] != 0 -> last[t] : NOBODY)
#else
        on = (own[t] == NOBODY && keeper[t] != 0 -> last[t] : NOBODY)
#endif
        _A;
        if
        :: on != NOBODY ->
#ifdef F_ALONE_INSIDE_FIRST
            atomic { HAS_ROOM(t) -> PUSH(t, 1+on, 1, 0) };
#endif
            lane_is_kept(t, on, 0);
            if
            :: cas ->
                A_ cas = 0; in = NOT_IN _A;
#ifdef F_ALONE_INSIDE_FIRST
                atomic { HAS_ROOM(t) -> in = ALONE; into(t, on) };
#else
                ALONE_IN(t);
#endif
#ifdef F_ALONE_RESTS_EARLY
                ALONE_RESTS(t);
#endif
                if :: in -> done = 1; MAY_TURN(t, on); ALONE_OUT(t) :: else fi;
#if !defined(F_ALONE_RESTS_EARLY) && !defined(F_ALONE_STAYS_IN_USE)
                ALONE_RESTS(t)
#endif
            :: else ->
#ifdef F_ALONE_INSIDE_FIRST
                atomic { HAS_ROOM(t) -> PUSH(t, 1+on, 0, 1) }
#endif
            fi
        :: else
        fi;
#ifdef F_ALONE_OWN_UNASKED
        A_ plain[t] = 1; in = NOT_IN; on = NOBODY _A
#else
        A_ plain[t] = (own[t] == NOBODY); in = NOT_IN; on = NOBODY _A
#endif
    :: else
    fi
}
#define NOT_KEEPING(t) keeper[t] == 0
#else
inline dspec_tracer_try_(t) { skip }
#define NOT_KEEPING(t) true
#endif
/* A thread that hands its paths on keeps no lane. `done` says whether. */
inline record_by_lock(t) {
    if
    :: !busy[t] -> A_ busy[t] = 1; on = (plain[t] && NOT_KEEPING(t) -> last[t] : NOBODY) _A;
        if
        :: on != NOBODY ->
            atomic { DRAIN(t); if :: st[on] == 0 -> st[on] = HELD; in = BY_LOCK; into(t, on) :: else -> in = NOT_IN fi };
            if
            :: in -> MAY_FILL(t, on); lane_leave_locked(t, on); done = 1;
#ifdef KEEPS
                if :: hands_on[t] == 0 -> lane_keeps(t, on, 0) :: else fi;
                if :: cas -> atomic { HAS_ROOM(t) -> PUSH_USE(t, on, 0, 1); cas = 0 } :: else fi
#endif
            :: else
            fi
        :: else
        fi;
        A_ busy[t] = 0; in = NOT_IN; on = NOBODY _A
    :: else
    fi
}
/* isown: it is the thread's own as for a path, which this record stands for. */
inline lane_for_record(t) {
    isown = 0;
#ifdef KEEPS
    if
    :: own[t] == NOBODY && keeper[t] != 0 ->
        lane_resumes(t, last[t], ANYONE);
        if :: cas -> A_ cas = 0; isown = 1 _A :: else -> lane_unkeep(t, 2); kept = 0 fi
    :: else
    fi;
#endif
    on = own[t];
    if
    :: on == NOBODY -> on = last[t];
        A_ if :: st[on] < USER && !(st[on] & (HELD|WANTED)) -> skip
        :: else ->
#if NL > 1
            if :: st[1-on] < USER && !(st[1-on] & (HELD|WANTED)) -> on = 1-on; last[t] = on :: else -> on = NOBODY fi
#else
            on = NOBODY
#endif
        fi _A;
#ifdef KEEPS
        do
        :: i < NL && on == NOBODY -> takes_over(t, (last[t]+i)%NL); i++
        :: else -> break
        od;
        A_ isown = (own[t] != NOBODY); i = 0 _A;
#endif
        if :: on == NOBODY -> on = last[t] :: else fi
    :: else
    fi;
    openc[t] = openc[t] + isown
}
/* record_on_own is its first way in */
inline record_slowly(t) {
    seat_enter(t);
    if
    :: x == 0 ->
        lane_for_record(t);
        lane_enter(t, on);
        if
        :: in -> MAY_FILL(t, on); serve_if_asked(t, on); lane_leave(t, on)
        :: else
        fi;
#ifdef F_ALONE_STAYS_OWN
        skip;
#else
        if :: isown -> lane_path_off(t, on, 1) :: else fi;
#endif
        seat_leave(t)
    :: else
    fi;
    A_ x = 0; in = 0; isown = 0; on = NOBODY _A
}
#ifdef KEEPS
/* A lane that is kept rests after a record alone, as its thread sees it; else no other could take it over. A handler may have come into its thread's use of the lane. */
inline assert_rests(t) {
    d_step {
        if
        :: own[t] == NOBODY && keeper[t] != 0 && (_pid < NT || plain[t]) -> gi = FLAG_OF(last[t], keeper[t]); x = in_use[gi]; load(t, 1+2*NL+FLAG_OF(last[t], keeper[t]), x); assert(!x)
        :: else
        fi; x = 0; gi = 0 }
}
#else
#define assert_rests(t) skip
#endif
inline dspec_tracer_record(t) {
    dspec_tracer_try_(t);
    if :: !done -> record_by_lock(t) :: else fi;
    if :: !done -> record_slowly(t) :: else fi;
    assert_rests(t);
    done = 0
}

/* ---- The end of a thread. ---- */

inline has_path_of(t, l) {
    atomic { gj = 0; has = 0; do :: gj < NP -> if :: (oid[(l)*NP+gj] != 0 && otok[(l)*NP+gj] == t+1) || (eend[gj] && glane[gj] == (l)) -> has = 1 :: else fi; gj++ :: else -> break od; gj = 0 }
}
inline throw_away(t, l) {
    atomic { gj = 0; users = 0;
        do
        :: gj < NP ->
            if :: eend[gj] && glane[gj] == (l) && etok[gj] == t+1 -> take_ended(l, gj); users++ :: else fi;
            if :: oid[(l)*NP+gj] != 0 && otok[(l)*NP+gj] == t+1 -> throw_one(l, gj); users++ :: else fi; gj++
        :: else -> break
        od; gj = 0 }
}
inline lane_count_owner_off(t) { atomic { DRAIN(t); if :: own[t] != NOBODY -> st[own[t]] = st[own[t]] - USER; assert(st[own[t]] >= 0) :: else fi } }
inline path_ends_with_thread(t) {
    do
    :: i < NL ->
        has_path_of(t, i);
        if
        :: has ->
            lane_enter(t, i);
            if
            :: in -> throw_away(t, i); lane_leave(t, i); atomic { DRAIN(t); st[i] = st[i] - users*USER; assert(st[i] >= 0); users = 0 }
            :: else
            fi
        :: else
        fi;
        A_ in = 0; has = 0; i++ _A
    :: else -> break
    od;
    i = 0;
#ifdef KEEPS
    if
    :: keeper[t] != 0 && own[t] != NOBODY -> lane_unkeep(t, 1); kept = 0
#ifdef F_ENDS_KEEPING
    :: keeper[t] != 0 && own[t] == NOBODY -> keeper[t] = 0
#else
    :: keeper[t] != 0 && own[t] == NOBODY -> lane_unkeep(t, 2); kept = 0
#endif
    :: else -> lane_count_owner_off(t)
    fi
#else
    lane_count_owner_off(t)
#endif
}
inline detach(t) {
#ifdef F_DETACH_ASKS
    seat_is_in(t, x);
#else
    seat_enter(t);
    no_token[t] = 1;
#endif
    if :: x == 0 -> path_ends_with_thread(t) :: else fi;
    /* forget: the thread has no seat in this tracer any more */
    atomic { seat_owns(t, NOBODY); plain[t] = 0; no_token[t] = 1; busy[t] = 1; x = 0 }
}

#ifdef WANTS
/* Of what a path does beside that the other settings have all. */
inline wants_lane(t) {
    claim(t);
    if
    :: on != NOBODY ->
        in = NOT_IN; dspec_tracer_enter_(t, on);
        if :: in -> dspec_tracer_leave_(t, on) :: else fi;
        atomic { DRAIN(t); st[on] = st[on] - 2*USER; seat_owns(t, NOBODY); on = NOBODY; in = NOT_IN }
    :: else
    fi
}
#endif

#define LOCALS byte on = NOBODY; byte i = 0; byte bi = 0; byte users = 0; short s = 0; byte in = NOT_IN; byte how = NOT_IN; bit out = 0; bit ok = 0; bit cas = 0; bit alone = 0; bit x = 0; bit x2 = 0; bit was_idle = 0; bit d = 0; \
    byte pre = 2; bit done = 0; bit noted = 0; bit isown = 0; bit has = 0; bit spent = 0; bit kept = 0; byte k = 0; byte tries = 0; byte was_own = NOBODY SEALED OWN_SEATS OWN_PATHS
#ifdef FULLS
#define SEALED ; bit sealed = 0
#else
#define SEALED
#endif

#if HANDLERS > 0
#define UNLESS_HANDLER provided (!hrun[_pid])
#else
#define UNLESS_HANDLER
#endif

/* What a thread does: digits to the base of 8, the first one last. 1 a record of its path, 2 its end, 3 a record in no path, 4 its path is handed on and it goes on with path 2, 5 it gets the path of the
 * other thread, where that handed it on, 6 it waits until the other thread's path is begun, 7 it goes on with a new path. Its end comes last. */
active [NT] proctype T() UNLESS_HANDLER {
    byte p = 0; short code = 0;
    LOCALS;
    atomic { code = (_pid == 0 -> S0 : (_pid == 1 -> S1 : S2)); p = _pid; last[_pid] = (_pid+1)%NL;
#ifdef STARTS_KEPT
        if :: _pid == 0 && st[last[0]] == START -> keeper[0] = 1; flag_taken[FLAG_OF(last[0], 1)] = 1; handed[last[0]] = 0; st[last[0]] = START + RESTS(0) :: else fi
#endif
    };
#ifdef WANTS
    if :: _pid == 1 -> wants_lane(_pid); fin[_pid] = 1; goto dead :: else fi;
#endif
    do
    :: code%8 == 1 -> dspec_path_record(_pid, p); code = code/8
#ifdef USES_END
    :: code%8 == 2 -> ends(_pid, p); code = code/8
#endif
#ifdef USES_PLAIN
    :: code%8 == 3 -> dspec_tracer_record(_pid); code = code/8
#endif
#ifdef HANDS
    :: code%8 == 4 -> atomic { DRAIN(_pid); moved[p] = 1; p = 2; code = code/8 }
    :: atomic { code%8 == 5 && (moved[1-_pid] || fin[1-_pid] || crashed[1-_pid]) -> p = (moved[1-_pid] -> 1-_pid : p); code = code/8 }
#endif
#ifdef USES_NEXT
    :: atomic { code%8 == 7 -> p = p+NT; code = code/8 }
#endif
#ifdef USES_WAIT
    :: atomic { code%8 == 6 && begun[1-_pid] -> code = code/8 }
#endif
    :: code == 0 -> break
    od;
    MAY_CRASH(_pid)
    detach(_pid);
    atomic { DRAIN(_pid); fin[_pid] = 1; gi = 0; do :: gi < NL -> assert(gin[gi] != _pid+1); gi++ :: else -> gi = 0; break od };
dead: skip
}

#if HANDLERS > 0
/* A handler of thread 0: the thread stands still, and what the handler does is done with that thread's seat, token and stores. It has a path of its own, the last one. */
active proctype H() {
    byte p = NP-1;
    LOCALS;
end_handlers:
    do
    :: atomic { hleft > 0 && !fin[0] && !hrun[0] && !cend && (S0%8 != 6 || begun[1]) -> hleft--; hrun[0] = 1 };
        if
#ifdef H_PLAIN
        :: dspec_tracer_record(0)
#else
        :: pover[p]
        :: !pover[p] -> dspec_path_record(0, p); if :: ends(0, p) :: skip fi
#endif
        fi;
        atomic { hrun[0] = 0 }
    od;
dead: skip
}
#endif

#if MEM > 0
/* The stores leave. */
inline out_at(t, k) {
    apply(sb[(t)*B+(k)]); gi = k;
    do :: gi+1 < bn[t] -> sb[(t)*B+gi] = sb[(t)*B+gi+1]; gi++ :: else -> break od;
    sb[(t)*B+bn[t]-1] = 0; bn[t]--; gi = 0
}
#define SECOND_OF(t) bn[t] > 1 && sb[(t)*B+1]%2 == 0 && sb[(t)*B+1]/4 != sb[(t)*B]/4
#define THIRD_OF(t) bn[t] > 2 && sb[(t)*B+2]%2 == 0 && sb[(t)*B+2]/4 != sb[(t)*B]/4 && sb[(t)*B+2]/4 != sb[(t)*B+1]/4
active proctype Memory() {
end_memory:
    do
    :: d_step { bn[0] > 0 -> out_at(0, 0) }
    :: d_step { bn[1] > 0 -> out_at(1, 0) }
#if NT > 2
    :: d_step { bn[2] > 0 -> out_at(2, 0) }
#endif
#if MEM == 2
    /* a later one first, where it is another place and no release */
    :: d_step { SECOND_OF(0) -> out_at(0, 1) }
    :: d_step { SECOND_OF(1) -> out_at(1, 1) }
    :: d_step { THIRD_OF(0) -> out_at(0, 2) }
    :: d_step { THIRD_OF(1) -> out_at(1, 2) }
#endif
    od
}
#endif

/* ---- lane.c, consumer.c: the consumer. ---- */

#define QUIET(t) (fin[t] || crashed[t])
#if NT > 2
#define ALL_QUIET (QUIET(0) && QUIET(1) && QUIET(2))
#else
#define ALL_QUIET (QUIET(0) && QUIET(1))
#endif

/* `got` says whether. timed 0: it waits for nothing. */
inline lane_take(l, bits, timed) {
    held = 0; alone = 0; got = 0; over = !(timed);
    do
    :: true ->
        if
        :: !held ->
#ifdef F_TAKE_ORDER_FIRST
            order();
#endif
            atomic { was = st[l]; st[l] = st[l] | HELD | WANTED | bits; held = !(was & HELD);
#ifdef F_TAKE_NOT_ALONE
                alone = 0;
#else
                alone = (held && was >= USER && !(was & SHARED));
#endif
                was = 0 };
#ifndef F_TAKE_ORDER_FIRST
            if :: alone -> order() :: else fi
#endif
        :: else
        fi;
        atomic { got = (held && !(alone && ins[l]));
#ifdef F_TAKE_NO_INSIDE
            got = held
#endif
        };
        if
        :: got || over -> break
        :: else ->
            /* wait_on */
            if
            :: held && ins[l] == 0
            :: !held && !(st[l] & HELD)
            :: CAN_GIVE_UP -> over = 1
            fi
        fi
    od;
    if :: got && alone && of_locked -> st[l] = st[l] | SHARED :: else fi;
#ifdef F_GIVEUP_KEEPS
    st[l] = st[l] & ~WANTED;
#else
    st[l] = st[l] & ~((held && !got) -> WANTED|HELD : WANTED);
#endif
    atomic { alone = 0; held = 0; over = 0 }
}
inline lane_release(l) {
#ifdef F_RELEASE_CLEARS_SHARED
    st[l] = st[l] & ~(HELD|SERVE|SHARED)
#else
    st[l] = st[l] & ~(HELD|SERVE)
#endif
}
/* The consumer in the lane's memory. */
inline c_memory(l) { atomic { assert(gin[l] == 0); assert(dat[l] == gdat[l]); gin[l] = CONSUMER; dat[l] = 1-dat[l]; gdat[l] = dat[l] } }
inline c_leaves(l) { gin[l] = 0 }

#ifdef FULLS
#define IS_SEALED sealed
/* takes, brings */
inline lane_write(l) {
    atomic { if :: switched[l] -> switched[l] = 0; is_back[l] = 0; old_out[l] = 0; full_out[l] = 0; taken = 1 :: else fi };
    if
    :: taken -> spare[l] = 1;
#ifdef F_ASKED_BEFORE_NOTED
        asked[l] = 1; is_back[l] = 1;
#else
        is_back[l] = 1; asked[l] = 1;
#endif
        taken = 0
    :: else
    fi
}
inline write_full() {
    do
    :: i < NL -> if :: is_full[i] -> is_full[i] = 0; lane_write(i) :: else fi; i++
    :: else -> i = 0; break
    od
}
#define NONE_FULL (!is_full[0] && !full_out[0] && !is_full[NL-1] && !full_out[NL-1])
/* Its time may be over at any time, or with for_ever once all threads are: then what they switched out since it was full is written. */
inline is_rung(for_ever) {
    do
    :: true ->
#ifdef F_FULL_IS_HEARD_LAST
        write_full(); rung_full = 0;
#else
        rung_full = 0; write_full();
#endif
        if
        :: rung -> break
        :: rung_full
        :: !(for_ever) -> break
        :: atomic { (for_ever) && ALL_QUIET && !rung && !rung_full -> assert(NONE_FULL) }; break
        fi
    od
}
#else
#define IS_SEALED true
#define is_rung(for_ever) skip
#endif

/* Whether a service that switched found the lane empty is the library's; here it may or may not. */
inline serve_between(l, timed) {
    lane_take(l, 0, timed);
    if
    :: got -> c_memory(l); path_throw_left(l);
#ifdef FULLS
        lane_serve(l, 0);
#endif
        c_leaves(l); if :: IS_SEALED -> st[l] = st[l] | IDLE :: skip fi; lane_release(l)
    :: else
    fi
}
inline drain_lane(l, timed) {
    if :: st[l] & IDLE -> got = 1 :: else -> serve_between(l, timed) fi
}
/* Does something with the lanes of `w`, those first that are free; the rest is waited for. `w` has those that are left over. */
#define EACH_LANE(DOES) \
    do \
    :: pass < 2 && w != 0 -> \
        do \
        :: l < NL -> if :: (w >> l) & 1 -> DOES; if :: got -> w = w & ~(1 << l) :: else fi; got = 0 :: else fi; l++ \
        :: else -> break \
        od; atomic { l = 0; pass++ } \
    :: else -> break \
    od; pass = 0
#define ALL ((1 << NL) - 1)
inline drain() { w = ALL; EACH_LANE(drain_lane(l, pass)); w = 0 }
#ifdef FULLS
#define NOTE_OLD(l) old[l] = 1; old_out[l] = switched[l]
/* What the lane had before the round asked is written, but where its thread is in the way. */
inline finish_lane(l) {
    atomic { got = 1 };
#ifndef F_SERVED_BEFORE_WRITTEN
    lane_write(l);
#endif
    if :: st[l] & SERVE -> serve_between(l, 0) :: else fi;
    lane_write(l);
    atomic { assert(!got || (!old[l] && !old_out[l])); old[l] = 0; old_out[l] = 0; got = 0; sealed = 0 }
}
#else
#define NOTE_OLD(l) skip
inline finish_lane(l) { if :: st[l] & SERVE -> serve_between(l, 0); got = 0 :: else fi }
#endif
inline ask_busy() {
    atomic { l = 0; w = 0; do :: l < NL -> if :: st[l] & IDLE -> skip :: else -> st[l] = st[l] | SERVE; w = w | (1 << l); NOTE_OLD(l) fi; l++ :: else -> break od; l = 0 }
}
/* Those whose threads made a service need none of it. */
inline make_round() {
#ifdef FULLS
    write_full();
#endif
    ask_busy();
    is_rung(0);
    do
    :: l < NL -> if :: (w >> l) & 1 -> finish_lane(l) :: else fi; l++
    :: else -> break
    od; l = 0; w = 0
}

inline keep_paths(l, token) {
    atomic { gj = 0;
        do
        :: gj < NP ->
            if
            :: oid[(l)*NP+gj] != 0 && otok[(l)*NP+gj] == token ->
                assert(fate[oid[(l)*NP+gj]-1] == OPEN); fate[oid[(l)*NP+gj]-1] = SAVED;
                /* leave_ended */
                eend[oid[(l)*NP+gj]-1] = 1; etok[oid[(l)*NP+gj]-1] = otok[(l)*NP+gj]; eown[oid[(l)*NP+gj]-1] = oown[(l)*NP+gj];
#ifndef F_SAVED_TWICE
                oid[(l)*NP+gj] = 0
#endif
            :: else
            fi; gj++
        :: else -> break
        od; gj = 0 }
}
inline save_lane(l, timed) {
    lane_take(l, 0, timed);
    if :: got -> c_memory(l); keep_paths(l, token); c_leaves(l); lane_release(l) :: else fi
}
inline lanes_with() {
    atomic { w = 0; l = 0;
        do
        :: l < NL -> gj = 0; do :: gj < NP -> if :: oid[l*NP+gj] != 0 && otok[l*NP+gj] == token -> w = w | (1 << l) :: else fi; gj++ :: else -> break od; l++
        :: else -> break
        od; l = 0; gj = 0 }
}
inline save_paths() { lanes_with(); EACH_LANE(save_lane(l, pass)); w = 0 }
/* Each thread that crashed and isn't saved yet. */
inline save_crashes() {
    do
    :: token < NT -> token++; if :: (posted >> (token-1)) & 1 -> save_paths(); posted = posted & ~(1 << (token-1)) :: else fi
    :: else -> token = 0; break
    od
}

inline decide_rest(l) {
    atomic { gj = 0; do :: gj < NP -> decide(l, gj, BY_STOP); gj++ :: else -> break od; gj = 0 }
}
inline end_taken(l) {
    c_memory(l); ggone[l] = 1; path_throw_left(l); decide_rest(l);
#ifdef F_END_RELEASES
    st[l] = st[l] & ~(HELD|GONE);
#endif
    c_leaves(l)
}
inline end_lane(l, timed) {
    lane_take(l, GONE, timed);
    if :: got -> end_taken(l) :: else fi
}
inline end_all() {
#ifdef DRAINS
    drain();
#endif
    do :: l < NL -> atomic { st[l] = st[l] | GONE; l++ } :: else -> break od; l = 0; w = ALL;
    EACH_LANE(end_lane(l, pass));
    atomic { do :: l < NL -> stuck[l] = (w >> l) & 1; l++ :: else -> break od; l = 0; w = 0 }
}

/* ---- What has to be, once all threads are over. ---- */

/* So many users as paths are open: no thread has a lane of its own any more. */
inline assert_users(l) {
    gj = 0; c = 0;
    do :: gj < NP -> if :: oid[(l)*NP+gj] != 0 -> c++ :: else fi; if :: eend[gj] && glane[gj] == (l) -> c++ :: else fi; gj++ :: else -> break od;
    gj = 0;
#ifdef KEEPS
    /* A thread whose wait for another was over may have left it kept, for others to take. */
    if
    :: (st[l] & KEEPER_BITS) != 0 -> assert(GIVEUP || HANDLERS > 0); assert(!in_use[FLAG_OF(l, (st[l] & KEEPER_BITS)/KEEPER)]); c = c+2
    :: else
    fi;
#endif
    assert(st[l]/USER == c); c = 0
}
/* Nobody is on the lanes, the consumer gets each at once, and what was left behind is thrown away. */
inline assert_quiet() {
    do
    :: l < NL ->
        atomic { assert(gin[l] == 0); assert(!(st[l] & (HELD|WANTED|GONE))) };
        serve_between(l, 0); assert(got); got = 0;
        atomic { assert(!(st[l] & (HELD|WANTED|GONE|SERVE))); assert_users(l); l++ }
    :: else -> l = 0; break
    od;
    atomic { do :: c < NP -> assert(!gleft[c] || fate[c] != OPEN); c++ :: else -> break od; c = 0 }
}
/* Each path that was begun has come to one end, but on a lane that is stuck; an ended lane stays held. */
inline assert_ended() {
    atomic {
        do :: c < NP -> if :: begun[c] && !stuck[glane[c]] -> assert(fate[c] != OPEN) :: else fi; c++ :: else -> break od; c = 0;
        do :: l < NL -> if :: !stuck[l] -> assert((st[l] & GONE) && (st[l] & HELD)); assert(!(st[l] & WANTED)) :: else -> assert(anycrash || GIVEUP) fi; l++ :: else -> break od; l = 0 }
}

#define IS_IDLE(l) ((st[l] & IDLE) != 0)
#if NL > 1
#define ALL_IDLE (IS_IDLE(0) && IS_IDLE(1))
#else
#define ALL_IDLE IS_IDLE(0)
#endif

inline idle_for() {
    atomic { w = 1; l = 0 };
    do :: l < NL -> if :: !IS_IDLE(l) -> w = 0 :: else fi; l++ :: else -> break od; l = 0
}
/* Once all threads are over, nobody stirs it any more: then it has seen all that they did. */
inline sleep_idle() {
#ifdef F_SLEEPS_UNSEEN
    idle_for(); asleep = 1;
#else
    asleep = 1; idle_for();
#endif
#ifdef FULLS
    if :: w -> is_rung(1); if :: rung :: else -> assert(ALL_IDLE) fi :: else fi;
#else
    if :: w -> if :: rung :: ALL_QUIET -> atomic { assert(rung || ALL_IDLE) } fi :: else fi;
#endif
    atomic { asleep = 0; rung = 0; w = 0 }
}

active proctype C() {
    byte r = 0; bit got = 0; bit held = 0; bit alone = 0; bit over = 0; byte l = 0; byte bi = 0; byte w = 0; byte c = 0; byte pass = 0; byte users = 0; short was = 0; byte token = 0; byte k = 0; byte mark = 0;
#ifdef FULLS
    bit sealed = 0; bit taken = 0; byte i = 0;
#endif
    do
    :: r < ROUNDS -> r++;
#ifdef SLEEPS
        sleep_idle();
#endif
#ifdef FULLS
        if :: is_rung(1) :: is_rung(0) fi; /* its period is long, or short */
#endif
#if CRASHES > 0
        save_crashes();
#endif
        if
        :: make_round()
#ifdef DRAINS
        :: drain()
#endif
        fi
    :: else -> break
    od;
    r = 0;
#ifdef ENDS_LATE
    (ALL_QUIET);
#endif
#if CRASHES > 0
    save_crashes();
#endif
#ifdef ENDS_LATE
    if :: !anycrash -> assert_quiet() :: else fi;
#endif
    end_all();
    cend = 1;
    (ALL_QUIET);
    assert_ended()
}
