/* The bench (crates/workers) as a SPIN model: how the dispatcher and the workers hand jobs over, wait and are woken.
 *
 * One transition is one atomic step of the code on a word of the table, or one futex call; what a thread does with its own variables is merged
 * into the step before or after. worker_1, dispatcher_1 and so on name the steps; steps.txt says where each stands in the sources.
 * Each step is sequentially consistent, as those of the table are. tests/model/search runs it. Choose by -D:
 *   W workers (1..3), P places (1..3)
 *   EXACT      counters that never wrap, kept as "equal or not" bits (exact)
 *   (else)     counters modulo M, of which a futex compares the number modulo ML (offers) or MLD (deliveries)
 *   UNBOUNDED  any number of jobs (only with EXACT, or to look for ABA)
 *   (else)     at most NJ jobs
 *   GENERAL    the dispatcher polls single places in any order, waits after any one of them was seen undelivered, stops at any time
 *   (else)     the dispatcher polls all places in a row between two waits, and stops when nothing is lent
 *   SPURIOUS   a futex wait may return without a wake
 *   MONITOR    with the process that asserts that no wake-up is lost
 *   BUG_...    a planted bug
 */
#ifndef W
#define W 2
#endif
#ifndef P
#define P 2
#endif
#ifndef NJ
#define NJ 3
#endif
#ifndef M
#define M 16            /* stands for 2^64 */
#endif
#ifndef ML
#define ML M            /* stands for 2^32: what a futex compares, of the offers' event count */
#endif
#ifndef MLD
#define MLD M           /* the same of the deliveries' */
#endif

/* a place's word */
#define EMPTY     0
#define OFFERED   1
#define CLAIMED   2
#define DELIVERED 3

/* what a worker's round gave: Round */
#define R_IDLE   0
#define R_SERVED 1
#define R_WOKE   2

/* where a worker is (st): for the futex queue of OFFER_EVENT (PARKED), and for the properties */
#define ACTIVE  0
#define HELD    1       /* runs its job: it may stay here for any finite time */
#define SIGNAL  2       /* between the store of a result and the end of signal_delivery */
#define PARKED  3
#define ENDED   4

/* where the dispatcher is (dst) */
#define D_ACTIVE   0
#define D_OFFERING 1    /* between the store of an offer and its wake */
#define D_PARKED   2    /* in the futex queue of DELIVERY_EVENT */
#define D_STOPPING 3
#define D_STOPPED  4    /* after its wake_all */

byte place[P];          /* words 48.. */
bit  STOP;              /* word 0 */
byte SLEEPERS;          /* word 16 */
byte SPINNERS;          /* word 17 */
byte st[W];
byte dst;
bit  lent[P];           /* the dispatcher's own flags (DispatchSeat) */

/* auxiliary, decides nothing: who has the slot of a place. 0 the table, 1 the dispatcher, 2+i worker i */
byte own[P] = 1;

#if W == 1
#define ALLW(f) f(0)
#define ANYW(f) (f(0))
#define EVERYW(f) (f(0))
#endif
#if W == 2
#define ALLW(f) f(0); f(1)
#define ANYW(f) (f(0) || f(1))
#define EVERYW(f) (f(0) && f(1))
#endif
#if W == 3
#define ALLW(f) f(0); f(1); f(2)
#define ANYW(f) (f(0) || f(1) || f(2))
#define EVERYW(f) (f(0) && f(1) && f(2))
#endif
#if P == 1
#define ANYP(f) (f(0))
#define ALLP(f) f(0)
#endif
#if P == 2
#define ANYP(f) (f(0) || f(1))
#define ALLP(f) f(0); f(1)
#endif
#if P == 3
#define ANYP(f) (f(0) || f(1) || f(2))
#define ALLP(f) f(0); f(1); f(2)
#endif

/* The event counts (words 1 and 32), SLEPT_AT (word 33) and the numbers that threads keep of them. */
#ifdef EXACT
/* Counters without end, by all that the code asks of them: which numbers are equal. */
bit same[W];            /* OFFER_EVENT == seen of worker i */
bit dsame = 1;          /* DELIVERY_EVENT == seen of the dispatcher */
bit slept = 1;          /* DELIVERY_EVENT == SLEPT_AT */
bit fs[W];              /* SLEPT_AT == found of worker i */
bit fd[W];              /* seen of the dispatcher == found of worker i */
#define Z_SAME(i)   same[i] = 0
#define Z_FD(i)     fd[i] = 0
#define C_FD(i)     fs[i] = fd[i]
#define O_READ(i)   same[i] = 1
#define O_FORGET(i) same[i] = 0
#define O_EQ(i)     (same[i])
#define O_LOWEQ(i)  (same[i])
#define O_INC       ALLW(Z_SAME)
#define D_EQ        (dsame)
#define D_LOWEQ     (dsame)
#define D_SEE       dsame = 1; ALLW(Z_FD)
#define D_ANNOUNCE  slept = dsame; ALLW(C_FD)
#define D_SIGNAL(i) fs[i] = slept; fd[i] = dsame; slept = 0; dsame = 0
#define D_FOUND(i)  (fs[i])
#define D_FORGET(i) fs[i] = 0; fd[i] = 0
#else
byte OE, DE, SLEPT_AT;  /* words 1, 32, 33 */
byte seen[W], found[W], dseen;
#define O_READ(i)   seen[i] = OE
#define O_FORGET(i) seen[i] = 0
#define O_EQ(i)     (OE == seen[i])
#define O_LOWEQ(i)  (OE % ML == seen[i] % ML)
#define O_INC       OE = (OE + 1) % M
#define D_EQ        (DE == dseen)
#define D_LOWEQ     (DE % MLD == dseen % MLD)
#define D_SEE       dseen = DE
#define D_ANNOUNCE  SLEPT_AT = dseen
#define D_SIGNAL(i) found[i] = DE; DE = (DE + 1) % M
#define D_FOUND(i)  (SLEPT_AT == found[i])
#define D_FORGET(i) found[i] = 0
#endif

/* how many jobs are offered: up to NJ, or without a bound */
#ifdef UNBOUNDED
#define CANOFFER    1
#define TAKEJOB     skip
#else
byte left = NJ;
#define CANOFFER    (left > 0)
#define TAKEJOB     left--
#endif

/* wake_one on OFFER_EVENT: any one of those in its queue (the kernel's order is one of these) */
#if W == 1
#define WAKE_ONE_O if :: st[0] == PARKED -> st[0] = ACTIVE :: else -> skip fi
#endif
#if W == 2
#define WAKE_ONE_O if :: st[0] == PARKED -> st[0] = ACTIVE :: st[1] == PARKED -> st[1] = ACTIVE :: else -> skip fi
#endif
#if W == 3
#define WAKE_ONE_O if :: st[0] == PARKED -> st[0] = ACTIVE :: st[1] == PARKED -> st[1] = ACTIVE \
    :: st[2] == PARKED -> st[2] = ACTIVE :: else -> skip fi
#endif
#define UNPARK(i)  st[i] = (st[i] == PARKED -> ACTIVE : st[i])
#define WAKE_ALL_O ALLW(UNPARK)
#define WAKE_ONE_D if :: dst == D_PARKED -> dst = D_ACTIVE :: else -> skip fi

#define LENT(k)      lent[k]
#define ISENDED(i)   st[i] == ENDED
#define ISPARKED(i)  st[i] == PARKED
#define ISSIGNAL(i)  st[i] == SIGNAL
#define ISQUIET(i)   (st[i] == PARKED || st[i] == HELD || st[i] == ENDED)
#define ISOFFERED(k) place[k] == OFFERED
#define ANYLENT      ANYP(LENT)
#define ALLENDED     EVERYW(ISENDED)

#ifdef GENERAL
#define NOT_THERE    pend[k] = 1; k = 0; goto top
#define COLLECTED    pend[k] = 0; k = 0; goto top
bit pend[P];            /* since the last wait returned, the dispatcher has offered at k, or has seen k undelivered */
#define PEND(k)      pend[k]
#define Z_PEND(k)    pend[k] = 0
#define MAYWAIT      ANYP(PEND)
#define WAITED       ALLP(Z_PEND)
#define LATE(k)      (pend[k] && place[k] == DELIVERED)
#define MAYSTOP      1
#else
/* maywait, a local of the dispatcher: each lent place was offered at or polled since the last wait returned */
#define NOT_THERE    k++; if :: k < P -> goto poll :: else -> k = 0; maywait = 1; goto top fi
#ifdef BUG_SHORTPOLL   /* a poll ends with its first result, as one with a full batch does, and the dispatcher waits all the same */
#define COLLECTED    k = 0; maywait = 1; goto top
#else
#define COLLECTED    NOT_THERE
#endif
#define MAYWAIT      (maywait && ANYLENT)
#define WAITED       maywait = 0
#define LATE(k)      (lent[k] && place[k] == DELIVERED)
#define MAYSTOP      (!ANYLENT)
#endif

/* A wake-up is lost. (1) A job waits, a worker sleeps, and no other thread is about to claim, scan or wake: each worker sleeps, has ended, or is
 * held in a job. (2) The dispatcher sleeps, a result that it waits for is there, and no worker is about to signal. (3) A worker sleeps after
 * the stop. */
#define LOST1 (!STOP && ANYP(ISOFFERED) && ANYW(ISPARKED) && EVERYW(ISQUIET) && dst != D_OFFERING)
#define LOST2 (dst == D_PARKED && ANYP(LATE) && !ANYW(ISSIGNAL))
#define LOST3 (dst == D_STOPPED && ANYW(ISPARKED))

/* ------------------------------------------------------------------------------------------------------------------ the dispatcher */
active proctype Dispatcher()
{
    byte k;
#ifndef GENERAL
    bit maywait = 1;
#endif
#ifdef BUG_OLDCOUNT
    bit none;
#endif

top:
    if
    /* Bench::offer, at a free place */
#ifdef BUG_OLDCOUNT
    :: atomic { CANOFFER && !lent[0] -> k = 0; none = (SLEEPERS == 0); goto oput }
#if P > 1
    :: atomic { CANOFFER && !lent[1] -> k = 1; none = (SLEEPERS == 0); goto oput }
#endif
#else
#ifdef BUG_SIGFIRST
    :: atomic { CANOFFER && !lent[0] -> k = 0; dst = D_OFFERING; O_INC; goto oput }
#if P > 1
    :: atomic { CANOFFER && !lent[1] -> k = 1; dst = D_OFFERING; O_INC; goto oput }
#endif
#else
    :: atomic { CANOFFER && !lent[0] -> k = 0; goto oput }
#if P > 1
    :: atomic { CANOFFER && !lent[1] -> k = 1; goto oput }
#endif
#if P > 2
    :: atomic { CANOFFER && !lent[2] -> k = 2; goto oput }
#endif
#endif
#endif
    /* Bench::collect */
#ifdef GENERAL
    :: atomic { lent[0] -> k = 0; goto poll }
#if P > 1
    :: atomic { lent[1] -> k = 1; goto poll }
#endif
#if P > 2
    :: atomic { lent[2] -> k = 2; goto poll }
#endif
#else
    :: atomic { ANYLENT -> k = 0; maywait = 0; goto poll }
#endif
    /* Bench::wait: wait_delivery */
#ifdef BUG_WAITFRESH
    :: atomic { MAYWAIT -> D_SEE; goto announce }
#else
    :: atomic { MAYWAIT && D_EQ -> goto announce }                                                      /* dispatcher_11 equal */
    :: atomic { MAYWAIT && !D_EQ -> D_SEE; WAITED; goto top }                                           /* dispatcher_11 changed */
#endif
    /* Bench::stop */
#ifdef BUG_STOPLATE
    :: atomic { MAYSTOP -> dst = D_STOPPING; O_INC; goto stopsignal }
#else
    :: atomic { MAYSTOP -> dst = D_STOPPING; STOP = 1; goto stopsignal }                                /* dispatcher_8 */
#endif
    fi;

oput:
    atomic {                                                                                            /* dispatcher_1 */
        assert(place[k] == EMPTY && own[k] == 1);
        dst = D_OFFERING; place[k] = OFFERED; own[k] = 0; lent[k] = 1; TAKEJOB;
#ifdef GENERAL
        pend[k] = 1;
#endif
    };
#ifndef BUG_SIGFIRST
    atomic { O_INC };                                                                                   /* dispatcher_2 */
#endif
#ifdef BUG_OLDCOUNT
    if
    :: atomic { none -> none = 0; k = 0; dst = D_ACTIVE; goto top }
    :: !none
    fi;
#else
    if                                                                                                  /* dispatcher_3 */
    :: atomic { SLEEPERS == 0 -> k = 0; dst = D_ACTIVE; goto top }
    :: SLEEPERS != 0
    fi;
#endif
    if                                                                                                  /* dispatcher_4 */
    :: atomic { SPINNERS != 0 -> k = 0; dst = D_ACTIVE; goto top }
    :: SPINNERS == 0
    fi;
    atomic { WAKE_ONE_O; k = 0; dst = D_ACTIVE; goto top };                                             /* dispatcher_5 */

poll:
    if                                                                                                  /* dispatcher_6 */
    :: lent[k] && place[k] == DELIVERED
    :: atomic { !lent[k] || place[k] != DELIVERED -> NOT_THERE }
    fi;
    if                                                                                                  /* dispatcher_7 */
    :: atomic { place[k] == DELIVERED ->
            assert(own[k] == 0);
            place[k] = EMPTY; own[k] = 1; lent[k] = 0; COLLECTED }
    :: atomic { place[k] != DELIVERED -> NOT_THERE }
    fi;

announce:
#ifndef BUG_NOANNOUNCE
#ifndef BUG_ANNOUNCELATE
    atomic { D_ANNOUNCE };                                                                              /* dispatcher_12 */
#endif
#endif
look:
    if                                                                                                  /* dispatcher_13 */
    :: atomic { dst != D_PARKED && !D_EQ -> D_SEE; WAITED; goto top }
#ifndef BUG_ANNOUNCELATE
    :: dst != D_PARKED && D_EQ
    fi;
    if                                                                                                  /* dispatcher_14 */
    :: atomic { D_LOWEQ -> dst = D_PARKED; goto asleep }
    :: atomic { !D_LOWEQ -> goto look }
    fi;
#else
    :: dst != D_PARKED && D_EQ
    fi;
    atomic { D_ANNOUNCE };
    atomic { dst = D_PARKED; goto asleep };
#endif
asleep:
#ifdef SPURIOUS
    atomic { dst = D_ACTIVE; goto look };
#else
    goto look;          /* local; `look` waits until it is no longer parked */
#endif

stopsignal:
#ifdef BUG_STOPLATE
    atomic { STOP = 1 };
#else
#ifndef BUG_STOPNOSIG
    atomic { O_INC };                                                                                   /* dispatcher_9 */
#endif
#endif
#ifdef BUG_STOPONE
    atomic { WAKE_ONE_O; dst = D_STOPPED };
#else
    atomic { WAKE_ALL_O; dst = D_STOPPED };                                                             /* dispatcher_10 */
#endif
    atomic { ALLENDED -> assert(SLEEPERS == 0 && SPINNERS == 0) }       /* the end of the scope: all threads have ended */
}

/* --------------------------------------------------------------------------------------------------------------------- the workers */
/* What a worker does between two steps on words: goes on to the next place, or ends its round (Bench::work, try_places). `last` is asked only whether
 * it is Woke, so Served is kept as Idle there. */
#ifdef BUG_SPINLATE
#define PAYSPIN if :: owe -> owe = 0; SPINNERS-- :: else -> skip fi
#else
#define PAYSPIN skip
#endif
#ifdef BUG_SEENLATE
#define SEENLATE O_READ(me)
#else
#define SEENLATE skip
#endif
#define NEXT k++; \
        if \
        :: k < P -> goto scan \
        :: else -> k = 0 \
        fi; \
        PAYSPIN; \
        SEENLATE; \
        if \
        :: round == R_WOKE -> last = R_WOKE; round = R_IDLE; O_FORGET(me); goto loop \
        :: round == R_SERVED -> last = R_IDLE; round = R_IDLE; O_FORGET(me); goto loop \
        :: round == R_IDLE && last == R_WOKE -> last = R_IDLE; goto sleep \
        :: round == R_IDLE && last != R_WOKE -> goto spinin \
        fi
/* after a claim: which later place wake_another looks at first, if there is one */
#ifdef BUG_NOANOTHER
#define FIRST_OTHER o = 0; st[me] = HELD; goto held
#else
#define FIRST_OTHER o = k + 1; if :: o == P -> o = 0; st[me] = HELD; goto held :: else -> goto another fi
#endif
active [W] proctype Worker()
{
    byte k, o, round, last;     /* last: the Round before, R_IDLE at first */
#ifdef BUG_SPINLATE
    bit owe;
#endif
#ifdef BUG_DOLDSLEPT
    byte old;
#endif
#define me (_pid - 1)

loop:
#ifdef BUG_STOPBEFORE
    if
    :: atomic { STOP -> st[me] = ENDED; goto ended }
    :: !STOP
    fi;
    atomic { O_READ(me); round = R_IDLE };
#else
#ifndef BUG_SEENLATE
    atomic { O_READ(me) };                                                                              /* worker_1 */
#endif
    if                                                                                                  /* worker_2 */
    :: atomic { STOP -> O_FORGET(me); last = 0;
#ifdef BUG_SPINLATE
            if :: owe -> owe = 0; SPINNERS-- :: else -> skip fi;
#endif
            st[me] = ENDED; goto ended }
    :: !STOP
    fi;
#endif

scan:
    if                                                                                                  /* worker_3 */
    :: atomic { place[k] != OFFERED -> NEXT }
    :: place[k] == OFFERED
    fi;
#ifdef BUG_CLAIMSTORE
    atomic { assert(own[k] == 0); place[k] = CLAIMED; own[k] = 2 + me; O_FORGET(me); FIRST_OTHER };
#else
    if                                                                                                  /* worker_4 */
    :: atomic { place[k] == OFFERED ->
            assert(own[k] == 0);
            place[k] = CLAIMED; own[k] = 2 + me; O_FORGET(me); FIRST_OTHER }
    :: atomic { place[k] != OFFERED -> NEXT }
    fi;
#endif
    /* wake_another */
#ifndef BUG_NOANOTHER
another:
    if                                                                                                  /* worker_5 */
    :: atomic { place[o] != OFFERED ->
#ifdef BUG_NEXTONLY
            o = P;
#else
            o++;
#endif
            if :: o == P -> o = 0; st[me] = HELD; goto held :: else -> goto another fi }
    :: atomic { place[o] == OFFERED -> o = 0 }
    fi;
    if                                                                                                  /* worker_6 */
    :: atomic { SLEEPERS == 0 -> st[me] = HELD; goto held }
    :: SLEEPERS != 0
    fi;
    if                                                                                                  /* worker_7 */
    :: atomic { SPINNERS != 0 -> st[me] = HELD; goto held }
    :: SPINNERS == 0
    fi;
    atomic { WAKE_ONE_O; st[me] = HELD };                                                               /* worker_8 */
#endif
held:
    /* the job runs; then deliver, signal_delivery */
#ifdef BUG_DSIGFIRST
    atomic { st[me] = SIGNAL; D_SIGNAL(me) };
    atomic { assert(place[k] == CLAIMED && own[k] == 2 + me); place[k] = DELIVERED; own[k] = 0 };
#else
    atomic {                                                                                            /* worker_9 */
        assert(place[k] == CLAIMED && own[k] == 2 + me);
        st[me] = SIGNAL; place[k] = DELIVERED; own[k] = 0 };
#ifdef BUG_DOLDSLEPT
    atomic { old = SLEPT_AT };
#endif
    atomic { D_SIGNAL(me) };                                                                            /* worker_10 */
#endif
#ifdef BUG_DOLDSLEPT
#undef D_FOUND
#define D_FOUND(i) (old == found[i])
#endif
    if                                                                                                  /* worker_11 */
    :: atomic { D_FOUND(me) -> D_FORGET(me); round = R_WOKE }
    :: atomic { !D_FOUND(me) -> D_FORGET(me); round = R_SERVED; st[me] = ACTIVE; NEXT }
    fi;
    atomic { WAKE_ONE_D; st[me] = ACTIVE; NEXT };                                                       /* worker_12 */
spinin:
    /* spin_then_sleep */
    atomic { SPINNERS++ };                                                                              /* worker_13 */
spin:
    if                                                                                                  /* worker_14 */
    :: atomic { !O_EQ(me) ->
#ifdef BUG_SPINLATE
            O_FORGET(me); owe = 1; goto loop
#else
            goto signaled
#endif
        }
    :: O_EQ(me) -> goto spin
    :: O_EQ(me)                                                         /* the last of its looks */
    fi;
#ifdef BUG_SPINFRESH
    atomic { SPINNERS--; O_READ(me) };
#else
    atomic { assert(SPINNERS > 0); SPINNERS-- };                                                        /* worker_15 unsignaled */
#endif
sleep:
    /* sleep */
#ifdef BUG_NOCOMPARE
    if
    :: atomic { !O_EQ(me) -> O_FORGET(me); goto loop }
    :: O_EQ(me)
    fi;
    atomic { SLEEPERS++ };
    atomic { st[me] = PARKED; goto parked };
#else
    atomic { SLEEPERS++ };                                                                              /* worker_16 */
    if                                                                                                  /* worker_17 */
    :: atomic { !O_EQ(me) -> goto countout }
    :: O_EQ(me)
    fi;
#endif
    if                                                                                                  /* worker_18 */
    :: atomic { O_LOWEQ(me) -> st[me] = PARKED; goto parked }
    :: atomic { !O_LOWEQ(me) -> goto countout }
    fi;
parked:                                                                                                 /* worker_19: woken */
#ifdef SPURIOUS
    if
    :: atomic { st[me] == PARKED -> st[me] = ACTIVE; goto countout }
    :: atomic { st[me] != PARKED -> goto countout }
    fi;
#endif
countout:
    atomic { st[me] != PARKED ->                                                                        /* worker_20 */
#ifdef BUG_STOREZERO
        SLEEPERS = 0;
#else
        assert(SLEEPERS > 0); SLEEPERS--;
#endif
        O_FORGET(me); goto loop };
#ifndef BUG_SPINLATE
signaled:
    atomic { assert(SPINNERS > 0); SPINNERS--; O_FORGET(me); goto loop };                               /* worker_15 signaled */
#endif
ended:
    skip
}

#ifdef MONITOR
/* It moves only where a wake-up is lost. */
active proctype Monitor()
{
end:
    if
    :: atomic { LOST1 -> assert(false) }
    :: atomic { LOST2 -> assert(false) }
    :: atomic { LOST3 -> assert(false) }
    fi
}
#endif

#define l0 (lent[0])
#if P > 1
#define l1 (lent[1])
#endif
#if P > 2
#define l2 (lent[2])
#endif
#define stopped (STOP == 1)
#define allended ALLENDED

#ifdef LTL_COLLECT
/* each offered job is collected */
#if P == 1
ltl collect { [] (l0 -> <> !l0) }
#endif
#if P == 2
ltl collect { ([] (l0 -> <> !l0)) && ([] (l1 -> <> !l1)) }
#endif
#if P == 3
ltl collect { ([] (l0 -> <> !l0)) && ([] (l1 -> <> !l1)) && ([] (l2 -> <> !l2)) }
#endif
#endif
#ifdef LTL_STOP
/* after the stop each worker ends */
ltl ends { [] (stopped -> <> allended) }
#endif
