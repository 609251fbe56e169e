"""The sweep on the model alone: the promise on random and on small tables, refusals, exact sizes, several sweeps in a
row, volumes.
"""

import wire
from boundary import Boundary
from generate import renumbered, table_of
from kernel import Session, redo, undo
from layout import Table
from met import Met
from rules import check, count
from sweep import corners_of_face, sweep
from sweep_cases import (KINDS, chosen_face, exact_case, range_cases, ranges_of, small_cases, sweep_trial, table_for,
                         taken_by, vector_for, whole_body, whole_faces)
from sweep_met import WANTED, add_sweep, asked_for, want_small
from sweep_promise import keep_promise
from takedown_tables import capacities_with
from wavefront_parts import parts
from wavefront_properties import volumes_by_loops


def answers_of(cases):
    return [wire.answer_case(case) for case in cases]


# What is asked of each answer

def keep(tally, met, cases):
    """A refusal changes nothing; an accepted sweep keeps the promise, leaves a sound table, and adds what it has to.
    Gives the answers."""
    lifted, answers = [], answers_of(cases)
    for case, answer in zip(cases, answers):
        add_sweep(met, case, answer)
        if answer.numbers[0] != 0:
            tally.equal(f"refused changes nothing: {case}", (answer[2:], answer.numbers[2]), (case[2:], 0))
            tally.equal(f"a rule with 2 alone: {case}", answer.numbers[1] > 0, answer.numbers[0] == 2)
            continue
        lifted.append((case, answer))
        tally.equal(f"stays sound: {case}", check(answer.links, answer.points), (0, 0))
        tally.equal(f"counts: {case}", count(answer.links, answer.points), counts_after(case))
    keep_promise(answers_of, tally, met, lifted)
    return answers


def counts_after(case):
    """By "A loop of n corners adds n vertices, 2n edges and n faces and leaves s, r and h"; a new face has a loop."""
    b, face, _ = asked_for(case)
    n, (_, _, s, f, l, e, v, r, h) = len(corners_of_face(b, face)), count(case.links, case.points)
    return 0, 0, s, f + n, l + n, e + 2 * n, v + n, r, h


def random_sweeps(tally, rng, scale):
    met, trials = Met(), [sweep_trial(rng) for _ in range(int(1_500 * scale))]
    for (case, refusal), answer in zip(trials, keep(tally, met, [trial.case for trial in trials])):
        if refusal is not None:
            tally.equal(f"the first reason counts: {case}", answer.numbers[0], refusal)
    # Fewer cases than by default cannot be asked to meet everything.
    met.want_situations(tally, WANTED if scale >= 1 else ())


def small_sweeps(tally, _rng, scale):
    """Every table of two edges at most, every face; with a large scale by three vectors, else by one."""
    cases, met = small_cases(), Met()
    keep(tally, met, cases if scale >= 5 else cases[1::3])
    keep(tally, met, range_cases())
    want_small(tally, met)


# Sizes

def exact_sizes(tally, rng, scale):
    """As many free numbers and log bytes as are taken are enough; with one less of any the sweep is refused."""
    for _ in range(int(120 * scale)):
        b = whole_body(rng, ())
        face = chosen_face(rng, b, whole_faces(b))
        taken = taken_by(len(corners_of_face(b, face)))
        for place, number in enumerate(taken):
            spares = taken[:place] + [number - 1] * (number > 0) + [0] * (number == 0) + taken[place + 1:]
            table, here = table_for(rng, b, face, capacities_with(b, spares))
            vector = vector_for(rng, ranges_of(Boundary(table), here), False)
            case = exact_case(table, here, vector)
            by_size(tally, case, number > 0)


def by_size(tally, case, lacking):
    if lacking:
        roomy = case._replace(log=bytes(2_000), session=(2_000, 0))
        tally.equal(f"a number less: {case}", wire.answer_case(roomy).numbers, (10, 0, 0))
        return
    answer, short = wire.answer_case(case), case._replace(session=(case.session[0] - 1, 0))
    tally.equal(f"all that is taken: {case}", (answer.numbers[:2], answer.session[0]), ((0, 0), 0))
    tally.equal(f"a log byte less: {case}", wire.answer_case(short).numbers, (9, 0, 0))


# In a row

def sweeps_in_a_row(tally, rng, scale):
    """Up to four sweeps of any faces, undone together and in parts, and redone: each time the table that there was.
    Log and points have room, so that 10 is due where numbers are lacking, and nothing else is."""
    several = 0
    for _ in range(int(60 * scale)):
        b = whole_body(rng, ())
        table = renumbered(rng, b, capacities_with(b, (150, 150, 150, 300, 150)))
        log, redo_log, session = bytearray(2_000), bytearray(20_000), Session(2_000, 20_000)
        lent, seen = (table.links, table.points, log, redo_log, session), [(*map(list, (table.links, table.points)), 0)]
        for _ in range(rng.randint(1, 4)):
            body = Boundary(table)
            face = rng.choice(whole_faces(body))
            n, full = len(corners_of_face(body, face)), too_few(body, len(corners_of_face(body, face)))
            answer = sweep(*lent, face, *vector_for(rng, ranges_of(body, face), False))
            if tally.equal(f"in a row: {table.links}", answer, (10, 0, 0) if full else (0, 0, 2 * n)) and not full:
                seen.append((list(table.links), list(table.points), answer.done))
        several += len(seen) > 2
        for back, (links, points, _) in reversed(list(enumerate(seen[:-1]))):
            undone = undo(*lent, seen[back + 1][2])
            tally.equal(f"one undone: {links}", (undone[:2], table.links, table.points), ((0, 0), links, points))
        redone = redo(*lent, sum(done for _, _, done in seen))
        tally.equal(f"all redone: {seen[0][0]}", (redone[:2], table.links, table.points), ((0, 0), *seen[-1][:2]))
    tally.equal(f"two sweeps or more in a row: {several}", several >= int(20 * scale), True)


def too_few(b, n):
    """Numbers are lacking for n corners: by the items of the body, against its capacities."""
    used = {"face": len(b.face_solid), "loop": len(b.items("loop")), "edge": len(b.start) // 2, "vertex": len(b.points)}
    capacities = dict(zip(KINDS, b.capacities))
    return any(capacities[kind] - used[kind] < (2 * n if kind == "edge" else n) for kind in used)


# Volumes

def cross(p, q):
    return p[1] * q[2] - p[2] * q[1], p[2] * q[0] - p[0] * q[2], p[0] * q[1] - p[1] * q[0]


def six_volumes_added(b, face, vector):
    """Of a plane face: six times its area times how far it goes outward. Loops run clockwise seen from outside, rings
    the other way, so the sum of their cross products is minus twice the area, inward."""
    total = [0, 0, 0]
    for loop in b.loops_of_face(face):
        corners = [b.points[b.start[half]] for half in b.cycles[loop]]
        for pair in zip(corners, corners[1:] + corners[:1]):
            total = [one + more for one, more in zip(total, cross(*pair))]
    return -3 * sum(one * far for one, far in zip(total, vector))


def volumes(tally, rng, _scale):
    """Some faces of each part, lifted in any direction: the body grows by what the face goes over."""
    for part in parts():
        for face in rng.sample(sorted(part.body.face_solid), 5):
            part.body.capacities = capacities_with(part.body, taken_by(len(corners_of_face(part.body, face))))
            table = table_of(part.body)
            vector, solid = vector_for(rng, ranges_of(part.body, face), False), part.body.face_solid[face]
            answer = wire.answer_case(exact_case(table, face, vector))
            tally.equal(f"{part.name}: face {face} by {vector}",
                        volumes_by_loops(Table(answer.links, answer.points), solid) - volumes_by_loops(table, solid),
                        six_volumes_added(part.body, face, vector))


SWEEP_PROPERTIES = (random_sweeps, small_sweeps, exact_sizes, sweeps_in_a_row, volumes)
