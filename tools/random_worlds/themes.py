"""What files of events that are made at random are about: the size of their worlds, and which lines are likely."""

# How likely each kind of line is, by theme. What a theme doesn't name has the weight of `mixed`.
MIXED = {
    "send": 22, "receive": 18, "wait": 12, "deliver_new": 26, "deliver_any": 8, "deliver_late": 3, "lose": 3,
    "tick": 5, "restart": 1, "stray": 1, "refused_call": 3, "refused_event": 2, "set_buffer": 2, "rename": 0.3, "unblock": 6,
    "test": 5, "cancel": 2, "wait_for_several": 5, "set_layout": 2, "bring_some": 2,
    "restart_in_the_middle": 0.5, "cancel_in_the_middle": 0.5, "make_communicator": 1, "enter_alone": 0.5, "ask": 2,
    "move_elements": 1.5, "enter_one": 0.3, "refused_collective": 0.3, "come_early": 1, "probe": 6, "receive_message": 5,
}
ON_COMMUNICATORS = ["make_communicator", "enter_alone", "ask", "restart_in_a_collective", "move_elements", "enter_one",
                    "refused_collective"]
THEMES = {
    "mixed": (30, {}),
    "wildcards": (12, {"receive": 30, "send": 30, "wait": 20, "restart": 0}),
    "restarts": (16, {"restart": 8, "deliver_late": 8, "deliver_any": 12}),
    "losses": (8, {"lose": 14, "tick": 16, "deliver_any": 14}),
    "early": (24, {"come_early": 24, "send": 30, "receive": 24, "wait_for_several": 12, "lose": 5, "tick": 10, "deliver_any": 10,
                   "bring_some": 4}),
    "early_restarts": (8, {"come_early": 24, "send": 30, "receive": 24, "restart": 5, "deliver_late": 8, "deliver_any": 10, "tick": 8}),
    "large_losses": (10, {"come_early": 16, "send": 14, "receive": 16, "lose": 8, "tick": 12, "bring_some": 10, "deliver_any": 8}),
    "strays": (5, {"stray": 40}),
    "refusals": (8, {"refused_call": 30, "refused_event": 12, "rename": 3}),
    "window": (7, {"deliver_new": 40, "deliver_any": 12, "tick": 3}),
    "queues": (4, {"receive": 40, "send": 40}),
    "crowd": (4, {"restart": 2}),
    "several": (10, {"wait_for_several": 30, "receive": 34, "send": 28, "cancel": 6, "test": 12}),
    "probes": (40, {"probe": 34, "receive_message": 22, "send": 30, "receive": 8, "test": 8, "bring_some": 6}),
    "probes_and_restarts": (14, {"probe": 30, "receive_message": 16, "send": 30, "restart": 5, "restart_in_the_middle": 8,
                                 "deliver_late": 4}),
    "layouts": (10, {"set_layout": 14, "receive": 26, "send": 26}),
    "large": (24, {"send": 14, "receive": 16, "deliver_new": 30, "bring_some": 14, "deliver_any": 10, "lose": 4, "tick": 8, "cancel": 4,
                   "test": 8, "restart_in_the_middle": 3, "cancel_in_the_middle": 4}),
    "communicators": (24, {"make_communicator": 16, "enter_alone": 3, "ask": 12, "send": 24, "receive": 24, "deliver_new": 34,
                           "refused_call": 4}),
    "collectives": (34, {"move_elements": 30, "make_communicator": 3, "enter_one": 2, "refused_collective": 4, "deliver_new": 34,
                         "bring_some": 8, "restart_in_a_collective": 2}),
    "replaced": (14, {"make_communicator": 14, "enter_alone": 3, "ask": 6, "deliver_new": 30, "restart": 5, "restart_in_a_collective": 8,
                      "refused_call": 5}),
    "trees": (30, {"move_elements": 90, "make_communicator": 5, "enter_one": 1, "refused_collective": 2, "restart_in_a_collective": 4,
                   "lose": 2, "send": 4, "receive": 4, "wait": 4, "deliver_new": 10, "restart": 0.3}),
    "large_restarts": (8, {"send": 14, "receive": 16, "deliver_new": 30, "bring_some": 8, "deliver_any": 12, "restart": 5,
                           "deliver_late": 6, "restart_in_the_middle": 12}),
}
SHARE_OF_LARGE = {"large_losses": 0.65, "early": 0.15, "large": 0.65, "large_restarts": 0.65, "restarts": 0.2, "losses": 0.15,
                  "several": 0.1, "wildcards": 0.1, "window": 0.1}
LARGE_BYTES = [1025, 1025, 1026, 1032, 2048, 2049, 3072, 5000, 5000]
SHARE_OFF_WORLD = {"communicators": 0.8, "collectives": 0.3, "replaced": 0.7, "mixed": 0.3, "trees": 0.3, "large": 0.2,
                   "large_restarts": 0.2, "restarts": 0.2, "wildcards": 0.2}
