"""What the repository claims, and the clauses that say it: the one list from which the reading pages take their start.

Used by `definitions.py`. A claim of README.md stands here in its words, without its links. Each claim names the functions whose contracts carry
it, by crate, and the clauses that say it by their names: all where none is named. The contracts are printed in the chapter that is named with them.
What the prover shows of every function has no clause, and rests on no definition. Where a claim is what one of the definitions says, that is named.
"""

from collections import namedtuple

# What is claimed, the contracts that say it, and a definition CRATE/FILE.NAME of these that is the one to look at.
Claim = namedtuple("Claim", "words contracts definition", defaults=[""])
# Functions of a crate, separated by spaces, with the names of their clauses (none means all), and the chapter that prints their contracts. `PREFIX*`
# means each public function that begins so and is named by no claim.
Contract = namedtuple("Contract", "page crate functions clauses", defaults=[""])

# README.md's list of what is proved, item by item.
OF_README = [
    [
        Claim("Every function is safe: no overflow, no index out of range, no division by zero.", []),
        Claim("Every function ends, but those that wait for a lock, a thread, or a read or write.", []),
    ],
    [
        Claim(
            "`WorldCore::apply` does just what the definition `apply` says, or is refused and changes nothing.",
            [Contract("commands", "world_core", "WorldCore::apply WorldCore::new")],
        ),
        Claim("`replay` is its fold.", [Contract("commands", "world_core", "WorldCore::replay", "answers world")]),
        Claim(
            "A step by workers is the step of one thread.",
            [Contract("workers", "world_workers", "step_with StepWorkers::step"), Contract("workers", "world_core", "WorldCore::step_by WorldCore::step_one")],
        ),
    ],
    [Claim("The headline holds for every shared world.", [Contract("headline", "world_lock", "Held::headline")])],
    [
        Claim(
            "Each caller of a shared world sees one history that only grows.",
            [
                Contract(
                    "shared",
                    "world_lock",
                    "SharedWorld::* Held::call Held::step Held::settle",
                )
            ],
        ),
        Claim(
            "A reader answers from one published frame, and frames never go backwards.",
            [
                Contract("readers", "frame_mirror", "Reader::pose Reader::total Reader::ray Reader::region", "covers answer"),
                Contract("readers", "frame_mirror", "Reader::seen", "same"),
                Contract("readers", "frame_mirror", "Reader::learn"),
                Contract("readers", "frame_mirror", "Mark::frame Mark::covers"),
                Contract("readers", "frame_mirror", "Mirror::open", "publisher readers"),
                Contract("readers", "frame_mirror", "Publisher::publish", "added"),
                Contract("readers", "frame_mirror", "Publisher::seen", "same"),
                Contract("readers", "world_core", "WorldCore::frame", "frame"),
                Contract("readers", "world_core", "Frame::bodies"),
            ],
        ),
    ],
    [
        Claim(
            "Each call of the library for C does what the rules say.",
            [
                Contract("library", "dillmonth", "dm_version dm_open dm_close dm_copy dm_settle dm_save dm_saved dm_load dm_digest"),
                Contract(
                    "library_commands",
                    "dillmonth",
                    "dm_create_body dm_destroy_body dm_create_joint dm_destroy_joint dm_push dm_push_at dm_set_pose dm_set_velocity "
                    "dm_set_gravity dm_disable dm_enable dm_wake dm_sleep dm_step dm_apply_all",
                ),
                Contract(
                    "library_frames",
                    "dillmonth",
                    "dm_frame_take dm_frame_drop dm_frame_pose dm_frame_ray dm_frame_region dm_frame_total dm_frame_calls",
                ),
                Contract("library_on_shape", "dillmonth", "dm_ray_on_shape"),
                Contract("library_questions", "dillmonth", "dm_*"),
            ],
        )
    ],
    [
        Claim(
            "A loaded world is sound.",
            [
                Contract("saved", "world_core", "WorldCore::load", "loaded refused again"),
                Contract("saved", "world_core", "WorldCore::save", "value again"),
                Contract("sound", "world_core", "WorldCore::ledger WorldCore::plain", "sound"),
                Contract("saved", "loaded_text", "read_text"),
                Contract("saved", "saved_text", "write_text"),
            ],
        ),
        Claim("A rounded quotient is the nearest integer.", [Contract("numbers", "fixed_geom", "rdiv", "nearest")]),
        Claim(
            "The broad phase finds exactly the pairs that testing all pairs would find.",
            [Contract("commands", "world_core", "WorldCore::apply")],
            "contacts_base/ByPairs.contacts_between",
        ),
    ],
]

# What docs/PROVED.md claims beside these. The last ones are of the solver's inside, and no other claim rests on them.
FURTHER = [
    Claim(
        "The movers' momentum is the sum of all entries of the ledger, in every world that can come about.",
        [Contract("sound", "world_core", "WorldCore::ledger", "sound"), Contract("ledger", "impulse_ledger", "Ledger::total", "value")],
    ),
    Claim(
        "Two movers give one another one impulse, which leaves the sum of their momenta as it was.",
        [Contract("impulses", "momenta", "impulse_pair", "sum_x sum_y")],
    ),
    Claim(
        "A ray hits the first of all shapes of enabled bodies, or of those that its filter lets through. A region gives all shapes whose tight box "
        "overlaps it.",
        [
            Contract("queries", "world_queries", "ray"),
            Contract("queries", "world_queries", "filtered_ray", "hit"),
            Contract("queries", "world_queries", "region", "shapes"),
        ],
    ),
    Claim(
        "A census lists each body, joint and contact once, in the set where it stands.",
        [Contract("census", "world_core", "WorldCore::census WorldCore::stand")],
    ),
    Claim("An id that was taken back never names a body again.", [Contract("worlds", "body_handles", "removed_stays_gone")]),
    Claim("A digest is a function of the world alone.", [Contract("digests", "world_digest", "digest")]),
    Claim("A facing that is turned is a facing.", [Contract("numbers", "fixed_geom", "turn", "facing")]),
    Claim(
        "The ticks over dense arrays do what the definition says of bodies by slot and contacts by key.",
        [Contract("arrays", "world_core_base", "arrays_are_solving")],
    ),
    Claim(
        "What the ticks add to the movers' momentum is what gravity, immovable bodies and limits gave.",
        [Contract("arrays", "colour_solver", "run_step", "momentum")],
    ),
    Claim(
        "Rows that share no mover may be solved at once, and the rows of a colour are such rows.",
        [
            Contract("at_once", "colour_solver", "colours_at_once"),
            Contract("at_once", "world_core", "coloured_rows_are_colours"),
        ],
    ),
    Claim("The parts of a step together make the whole.", [Contract("parts", "part_runs", "parts_are_runs")]),
]


def all_claims():
    """Each claim, those of README.md first."""
    return [claim for item in OF_README for claim in item] + FURTHER
