"""The chapters of docs/definitions in their order: which definitions stand on which page.

Used by `definitions.py`. A source of a chapter is one of

- CRATE/FILE: the definitions of crates/CRATE/specs/FILE.antt;
- CRATE/FILE.NAME: this definition, with those of its file that are reached by such names of the chapter alone. The rest of the file may stand
  elsewhere;
- CRATE/src, or a file of it: the types and constants of this code. Those of other code stand where they are first used.
"""

from collections import namedtuple

# A chapter: its page without the ending, its title, what it has, and its sources.
Chapter = namedtuple("Chapter", "page title about sources")

PARTS = {
    "Commands": [
        Chapter(
            "commands",
            "Commands",
            "What a command answers, books and leaves, and what a list of commands does. Bodies and joints come and go.",
            "world_rules/Apply world_rules/Replay world_core/Grown world_rules/src world_core/src/world.rt",
        ),
        Chapter(
            "body_commands",
            "Commands to a body",
            "A body is pushed, put elsewhere, steered, disabled, enabled, woken or put to sleep.",
            "world_rules/Apply.apply_push world_rules/Apply.apply_pose world_rules/Apply.apply_velocity world_rules/Apply.apply_disable "
            "world_rules/Apply.apply_enable world_rules/Apply.apply_wake world_rules/Apply.apply_sleep",
        ),
        Chapter(
            "refusals",
            "Refusals",
            "Why a command is refused, each reason in its turn, and the numbers of all refusals.",
            "fixed_geom/src/refusal.rt fixed_geom/Refusals world_rules/Apply.join_refusal world_rules/Apply.gravity_refusal "
            "world_rules/Apply.mover_refusal world_rules/Apply.pushed world_rules/Apply.posed world_rules/Apply.steered "
            "plain_world/Bodies.def_refusal plain_world/Joints.joint_refusal",
        ),
        Chapter(
            "worlds",
            "Worlds",
            "A world as lists, its slots with their generations, and what a change leaves in them.",
            "world_rules/World plain_world/Plain plain_world/Slots plain_world/Changes body_handles/src body_handles/SlotEntries "
            "body_handles/Calls event_feed/Events",
        ),
        Chapter(
            "bodies",
            "Bodies and joints",
            "A body, its kind, its fat boxes, and a joint.",
            "plain_world/src plain_world/Bodies plain_world/Kinds plain_world/Joints plain_world/Fats",
        ),
        Chapter(
            "ledger",
            "The ledger",
            "Momenta, the entries that book each change of them, and their totals by cause.",
            "impulse_ledger/src plain_world/Momentum impulse_ledger/Sums impulse_ledger/Totals",
        ),
    ],
    "A step": [
        Chapter(
            "step",
            "A step",
            "A step in its stages: collide, islands and colours, ticks, sleep phase; and what it books and reports.",
            "world_rules/Apply.apply_step world_rules/Sets world_rules/Collide",
        ),
        Chapter(
            "collide",
            "Collide",
            "Which shapes are near one another, and what becomes of contacts.",
            "contacts_base/src contacts/src contacts_base/ByPairs contacts_base/Changes contacts_base/Forbidden plain_world/Constraints contacts_base/Near "
            "contacts_base/Evaluate contacts_base/Contacts contacts_base/Keys contacts_base/Surfaces",
        ),
        Chapter(
            "shapes",
            "Shapes",
            "Shapes, where they are, their boxes and their filters.",
            "shapes/src/shape.rt shapes/src/filter.rt shapes/src/pose.rt shapes/src/limits.rt shapes/Shapes shapes/Poses shapes/Cores shapes/Bounds "
            "shapes/Filters shapes/Mixing",
        ),
        Chapter(
            "manifolds",
            "Where two shapes touch",
            "The points of a contact: their places, their normal and their separation.",
            "shapes/src/points.rt shapes/src/spots.rt shapes/src/choice.rt shapes/Manifolds shapes/Spots fixed_geom/Options",
        ),
        Chapter(
            "ticks",
            "Ticks",
            "What a step does to momenta and poses, tick by tick.",
            "world_core_base/Solving world_core_base/Carried world_core_base/Renewal colour_solver/Masses",
        ),
        Chapter(
            "constraints",
            "One contact, one joint",
            "The visit of a contact and that of a joint in a tick.",
            "colour_solver_base/src/limits.rt joint_rows/src/limits.rt joint_rows/src/joint.rt colour_solver_base/ContactSolving joint_rows/Joints",
        ),
        Chapter(
            "impulses",
            "One impulse",
            "What an impulse does to two bodies.",
            "momenta/src momenta/Impulses momenta/Reciprocals momenta/Gains momenta/ImpulseBounds",
        ),
        Chapter("motions", "One body in a tick", "How gravity and the limits change momenta, and momenta a pose.", "momenta/src/motion.rt momenta/Motions"),
        Chapter(
            "numbers",
            "Numbers",
            "All arithmetic: roundings, vectors, facings, boxes.",
            "fixed_geom/src fixed_geom/Numbers fixed_geom/Vectors fixed_geom/Facings fixed_geom/Boxes fixed_geom/Reciprocals",
        ),
        Chapter("islands", "Islands", "Which movers share an island.", "islands/src islands/Labels islands/Links islands/Partition"),
        Chapter(
            "ties",
            "Constraints and their movers",
            "Which constraints act, and which movers each ties to one another.",
            "solver_sets/Ties solver_sets/Beside solver_sets/Joining",
        ),
        Chapter(
            "colours",
            "Colours",
            "Which colour a constraint takes.",
            "graph_colours/src graph_colours/Colours graph_colours/Members graph_colours/Movers plain_world/KeptColours",
        ),
        Chapter(
            "sleep",
            "Sleep",
            "Timers, and the islands that fall asleep.",
            "sleep_wake/SleepPhase sleep_wake/Sleeping plain_world/Sleep solver_sets/Slept",
        ),
        Chapter(
            "waking",
            "Waking",
            "What begins and ends to act, and whom this wakes.",
            "sleep_wake/src sleep_wake/Changes sleep_wake/Acting sleep_wake/Bodies sleep_wake/Waking sleep_wake/Widened",
        ),
    ],
    "What holds": [
        Chapter(
            "sound",
            "What every world keeps",
            "What holds of each world that can come about.",
            "world_rules/Sound plain_world/Formed world_core_base/ContactBodies solver_sets/Tied contacts_base/Limits",
        ),
        Chapter(
            "headline",
            "The headline",
            "What holds of a shared world whenever its lock is free.",
            "world_lock/Headline world_rules/Laws world_rules/Settled",
        ),
        Chapter("census", "Solver sets", "In which solver set each body, contact and joint stands.", "solver_sets/src solver_sets/Census solver_sets/EachOnce"),
    ],
    "Round the world": [
        Chapter("shared", "Shared worlds", "What the calls of a shared world report to a seat.", "world_lock/Histories"),
        Chapter("journals", "Journals", "Journals, their replay, and what each seat did.", "world_lock/Journals world_lock/Tallies seat_book/src seat_book/History seat_book/Seats"),
        Chapter("readers", "Readers", "Frames, and what readers answer from them.", "world_core/src/frame.rt world_core/Frames frame_mirror/Lists frame_mirror/Refused"),
        Chapter(
            "queries",
            "Rays and regions",
            "What a ray hits, and which shapes overlap a region.",
            "world_queries/Posed world_queries/Framed world_queries/Filters world_queries/AllHits world_queries/Limits shape_rays/Hits shapes/src/beam.rt "
            "shapes/Rays",
        ),
        Chapter("surfaces", "A ray on one shape", "Where a ray hits one shape, and how its surface faces there.", "world_queries/OnShape shape_rays/src/surfaces.rt shape_rays/Surfaces"),
        Chapter(
            "asked",
            "What a world is asked",
            "The ids of its bodies and joints, the joints and contacts of a body, and counts.",
            "world_core/Walks world_core_base/JointTables world_queries/Joints world_queries/OwnContacts world_queries/Counts",
        ),
        Chapter("workers", "Workers", "What a step by workers is.", "world_workers/Workers crew/Refusals"),
        Chapter(
            "digests",
            "Digests",
            "A world as words, and the sum of them.",
            "world_digest/src world_digest/Digests world_digest/BodyWords world_digest/ConstraintWords world_digest/Sums",
        ),
    ],
    "Saved worlds": [
        Chapter(
            "saved",
            "Saved worlds",
            "What is saved of a world, and what comes of a value or a text that is loaded.",
            "world_core/SavedAgain loaded_text/Worlds saved_text/Texts world_file/Answers world_file/Files world_file/Laws world_file/Saved",
        ),
        Chapter(
            "saved_clauses",
            "The ten clauses",
            "What a value has to keep to be loaded, clause by clause.",
            "world_file_base/src/clause.rt world_file/Clauses world_file/SavedLimits world_file_base/Asks",
        ),
        Chapter("saved_fitting", "What fits together", "What is asked of the parts of a saved world together.", "world_file/src world_file/Fitting"),
        Chapter(
            "saved_forms",
            "The form of a saved world",
            "The members that a saved world has, and their texts.",
            "world_file_base/src world_file/SavedForms world_file_base/Texts world_file_base/Versions body_handles/IdTexts",
        ),
        Chapter(
            "saved_reading",
            "Values",
            "How a value is read and written: numbers, lists, slots, totals.",
            "world_file_base/Reading world_file_base/Written world_file_base/SavedSlots world_file_base/SavedTotals",
        ),
        Chapter("saved_bodies", "Saved bodies", "How bodies and their shapes are read and written.", "world_file_base/SavedBodies world_file_base/SavedShapes"),
        Chapter("saved_constraints", "Saved joints and contacts", "How joints and contacts are read and written.", "world_file_base/SavedJoints world_file_base/SavedContacts"),
    ],
    "The library for C": [
        Chapter(
            "library",
            "The library",
            "A world's life: how it is opened, copied, saved, loaded, told apart from others and closed.",
            "world_desk/src dillmonth/src/statuses.rt dillmonth/src/keeping.rt dillmonth/src/held.rt dillmonth/Keeping dillmonth/Statuses world_desk/Texts "
            "world_desk/Clear",
        ),
        Chapter("library_commands", "Commands of the library", "What each call that is a command does, and a batch of commands.", "dillmonth/Calls dillmonth/Batch"),
        Chapter(
            "library_motions",
            "Motions of the library",
            "Velocities and spins that are read, and set by commands that there are.",
            "dillmonth/Motions dillmonth/Moving dillmonth/src/moving.rt",
        ),
        Chapter(
            "library_events",
            "Events of the library",
            "The events that are kept of step after step, and the tags of bodies.",
            "world_desk/Logs world_desk/Tags dillmonth/Events",
        ),
        Chapter("library_questions", "Questions of the library", "What each call that only asks answers.", "dillmonth/src/filters.rt dillmonth/src/rays.rt dillmonth/Questions"),
        Chapter("library_on_shape", "A ray on one shape, by the library", "What a call answers that asks for one shape's hit.", "dillmonth/src/on_shape.rt dillmonth/OnShape"),
        Chapter("library_lists", "Lists of the library", "The lists that the library keeps for a world, and what is left of each.", "dillmonth/Lists"),
        Chapter("library_getters", "Getters of the library", "What each call answers that asks for one body, joint or count.", "dillmonth/Getters"),
        Chapter("library_frames", "Frames of the library", "How a frame is taken of a world, and what each call answers that reads one.", "dillmonth/src/frames.rt dillmonth/src/frame_reading.rt dillmonth/Frames dillmonth/Loans"),
        Chapter("library_forms", "Structs of the library", "The structs of C, and what each means for a world.", "dillmonth/src/forms.rt dillmonth/Forms"),
    ],
    "Inside the solver": [
        Chapter(
            "arrays",
            "The ticks over arrays",
            "The ticks of a step over dense arrays of bodies and rows.",
            "world_core_base/SolvingArrays world_core_base/Gather world_core_base/ConstraintRows plain_world/InSlots contacts_base/ContactLists "
            "colour_solver/src colour_solver/ColourRows colour_solver/Ticks colour_solver/Passes",
        ),
        Chapter(
            "rows",
            "Rows",
            "The rows of contacts and joints, and their visits.",
            "colour_solver/ConstraintVisits colour_solver_base/src colour_solver_base/Rows colour_solver_base/RowsAfter joint_rows/src joint_rows/Rows",
        ),
        Chapter(
            "at_once",
            "What may be solved at once",
            "Rows of one colour may be solved at once.",
            "world_core/RowColours colour_solver/Colour colour_solver/RowVisits colour_solver/States",
        ),
        Chapter(
            "parts",
            "A step by parts",
            "The parts of a step, which hand bodies on to one another, together make the whole.",
            "part_runs/Laws part_runs/Runs part_runs/Hidden part_runs/Walks part_runs/Passes",
        ),
    ],
}
CHAPTERS = [chapter for chapters in PARTS.values() for chapter in chapters]
