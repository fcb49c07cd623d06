"""The wrong bodies of the proved crates that change what a node sends or delivers, made again in the plain node.

A wrong body is refused by the prover, so no program can be built of it. Each is here as the same mistake in the source of the plain node: its name, the
rules that it breaks, the text that stands once in the source, and the text in its place. Those that change nothing that a device shows, or only how a
stream is read or a run ends, are in LEFT_OUT with the reason."""

SOURCE_OF = {
    # K words
    "sdh_kbytes/decodes_code_four": ("2.word", "code, mark = k1 >> 4, k2 & 7", "code, mark = (k1 >> 4) + (k1 >> 4 == 4), k2 & 7"),
    "sdh_kbytes/mark_takes_the_path_bit": ("2.word", "code, mark = k1 >> 4, k2 & 7", "code, mark = k1 >> 4, k2 & 15"),
    "sdh_kbytes/path_bit_turned": ("2.word", "LONG if k2 & 8 else SHORT", "SHORT if k2 & 8 else LONG"),
    "sdh_kbytes/sends_every_word_short": ("9.k-bytes", "source << 4 | path << 3 | mark", "source << 4 | mark"),
    "sdh_kbytes/swaps_source_and_destination": ("9.k-bytes", "return code << 4 | to, source << 4", "return code << 4 | source, to << 4"),
    # local requests
    "sdh_request/waiting_ends_after_so_many_looks": ("3.waiting", "        self.defect = defect\n", "        self.defect = defect\n        self.ended = self.ended - 1 if self.ended else self.ended\n"),
    "sdh_request/a_command_clears_waiting": ("3.command|3.waiting", "            self.sides[SIDES.index(words[1])].command =", "            self.sides[SIDES.index(words[1])].ended = None\n            self.sides[SIDES.index(words[1])].command ="),
    "sdh_request/fail_before_forced": ("3.highest", "max(self.command or 0, defect,", "max(0 if self.command == FS and defect else self.command or 0, defect,"),
    "sdh_request/the_first_end_stays": ("3.waiting", "            self.ended = moment\n", "            self.ended = moment if self.ended is None else self.ended\n"),
    "sdh_request/waits_one_moment_too_long": ("3.waiting", "moment < self.ended + wait", "moment <= self.ended + wait"),
    # states and words
    "sdh_nodestate/relays_a_word_of_its_own": ("4.relays", "elif word and word[2] == self.me:", "elif False:"),
    "sdh_nodestate/an_own_word_with_the_others_source": ("4.long-word", "self.neighbours[e], self.me, LONG)  # 4.long-word", "self.neighbours[e], self.neighbours[e], LONG)  # 4.long-word"),
    "sdh_nodestate/two_equal_manual_requests_both_switch": ("4.switches-lower", "if self.weight[1 - d] >= mine:", "if self.weight[1 - d] > mine:"),
    "sdh_nodestate/a_low_long_word_hides_a_failure": ("4.first-11", "if self.weight[1 - d] >= SF:", "if self.weight[1 - d] >= FS:"),
    "sdh_nodestate/hears_after_two_frames": ("2.heard", "    first, second, last = brought\n", "    brought = brought[1], *brought[1:]\n    first, second, last = brought\n"),
    "sdh_nodestate/keeps_the_far_end_of_the_word_before": ("4.far", "        self.state, self.words, rules = step(", "        before = self.state\n        self.state, self.words, rules = step("),
    "sdh_nodestate/marks_are_compared": ("2.heard", '("code", "destination", "source", "path"))', '("code", "destination", "source", "path", "mark"))'),
    # pointers
    "sdh_pointer/four_bits_are_needed": ("5.majority", '"up" if increments >= 3', '"up" if increments >= 4'),
    "sdh_pointer/justified_one_frame_after_a_data_flag": ("5.spacing", "if kind and since == 3:", 'if kind and (since == 3 or kind == "up"):'),
    "sdh_pointer/lost_at_the_seventh_invalid_word": ("5.eight-invalid", "if invalid < 7 else", "if invalid < 6 else"),
    "sdh_pointer/never_sends_enabled": ("8.new-data", "return enabled | value, value,", "return normal | value, value,"),
    "sdh_pointer/third_new_value_restarts_since": ("5.three-new|5.spacing", "(NORM, v, 0, 0, 0, 0, grown), \"new\"", "(NORM, v, 0, 0, 0, 0, 0), \"new\""),
    "sdh_pointer/up_from_782_gives_783": ("5.increment", "(NORM, (value + 1) % 783,", "(NORM, value + 1,"),
    # squelching, bridging and switching
    "sdh_squelch/leaves_its_rows_empty": ("6.squelch", "        if circuit is None:\n            return False\n", "        return False\n"),
    "sdh_squelch/may_carry_asks_for_one_end": ("6.squelch", "return all((end - first)", "return any((end - first)"),
    "sdh_bridge/squelches_every_looped_slot": ("6.squelch", "        if far is None:  # 6.squelch\n", "        if True:  # 6.squelch\n"),
    "sdh_bridge/switches_without_squelching": ("6.squelch", "return all((end - first)", "return True or all((end - first)"),
    "sdh_bridge/bridges_without_a_far_end": ("6.squelch", "        if far is None:  # 6.squelch\n            return False", "        if far is None:  # 6.squelch\n            return True"),
    "sdh_bridge/one_end_in_the_chain_is_enough": ("6.squelch", "for end in self.ends[circuit])", "for end in self.ends[circuit][:1])"),
    "sdh_bridge/protection_passes_through_an_idle_node": ("6.pass|6.protection", 'if name == "pass":', 'if name in ("pass", "idle"):'),
    "sdh_bridge/the_chain_runs_the_wrong_way_round": ("6.squelch", "(self.ids.index(far), self.p) if d == EAST", "(self.ids.index(far), self.p) if d == WEST"),
    # overhead and parities
    "sdh_overhead/a_row_is_scrambled_twice": ("9.scrambling", "    line = turned(n, clear)\n", "    line = turned(n, clear)[: -270 * n] + clear[-270 * n :]\n"),
    "sdh_overhead/b2_is_looked_for_among_the_payload": ("1.violations", "violations(clear[fifth : fifth + 3 * self.n], before)", "violations(clear[fifth + 9 * self.n : fifth + 12 * self.n], before)"),
    "sdh_overhead/k1_is_read_at_k2s_place": ("2.word", "clear[fifth + 3 * self.n], clear[fifth + 6 * self.n]", "clear[fifth + 6 * self.n], clear[fifth + 6 * self.n]"),
    "sdh_overhead/pointers_are_left_out_of_b2": ("9.b2|1.violations", "for row in range(3)]  # 9.b2\n    return folded(b\"\".join([*parts, clear[3 * width :]])", "for row in range(4)]  # 9.b2\n    return folded(b\"\".join([*parts, clear[4 * width :]])"),
    "sdh_overhead/unframed_frame_is_not_forgotten": ("1.forgotten", "if found is None:  # 1.framing\n            self.before = None", "if found is None:  # 1.framing\n            self.before = self.before"),
    "sdh_parity/rsoh_rows_are_counted": ("9.b2|1.violations", "clear[width * row + HEAD * n : width", "clear[width * row + HEAD * n * (row != 1) : width"),
    "sdh_parity/a_sent_frame_counts_its_scrambled_bytes": ("9.b2", "(b1_of(line), b2_of(n, clear))", "(b1_of(line), b2_of(n, line))"),
    "sdh_parity/second_piece_is_scrambled_from_the_start": ("9.scrambling", "    line = turned(n, clear)\n", "    line = turned(n, clear)[: 1215 * n] + bytes(map(xor, clear[1215 * n :], sequence(n).to_bytes(2421 * n, \"big\")))\n"),
    "sdh_parity/sequence_starts_at_its_second_byte": ("9.scrambling", "(period * (length // 127 + 1))[:length]", "(period * (length // 127 + 2))[1 : length + 1]"),
    "sdh_parity/the_head_of_row_three_counts": ("9.b2|1.violations", "for row in range(3)]  # 9.b2", "for row in range(3)] + [clear[2 * width : 2 * width + HEAD * n], clear[2 * width + HEAD * n : 2 * width + 2 * HEAD * n]]  # 9.b2"),
    "sdh_parity/violations_count_bytes": ("1.violations|2.degraded", '(int.from_bytes(brought, "big") ^ int.from_bytes(before, "big")).bit_count()', "sum(one != two for one, two in zip(brought, before))"),
    # frames
    "sdh_frame/a_payload_is_copied_from_the_slot_it_goes_to": ("6.switch|6.bridge", "        action, value, payload, h3, rules = came[origin]\n        self.trace[*place", "        action, value, payload, h3, rules = came[origin]\n        payload = came[origin[0], \"w\" if place[2] < self.n // 2 else \"p\", origin[2]][2] or payload\n        self.trace[*place"),
    "sdh_frame/h3_is_taken_as_payload": ("5.place", "row[HEAD * n :] for row in rows)  # 5.place", "row[(HEAD - 1) * n : -n] for row in rows)  # 5.place"),
    "sdh_frame/k2_at_k1s_place": ("9.k-bytes", "fifth[3 * n], fifth[6 * n] = written(word)", "fifth[3 * n], fifth[6 * n + 1] = written(word)"),
    "sdh_frame/payload_place_of_the_next_au": ("9.columns", "body[au::n] = payload  # 9.columns", "body[(au + 1) % n :: n] = payload  # 9.columns"),
    "sdh_frame/view_writes_into_the_next_au": ("9.pointer-row|9.columns", "fourth[au::n] = bytes(", "fourth[0::n] = bytes("),
    # the exchange of payloads
    "sdh_interchange/an_own_payload_at_anothers_place": ("6.port", "self.streams[origin].payload(position, form)", "self.streams[self.ports[0]].payload(position, form)"),
    "sdh_interchange/halves_are_taken_from_the_same_place": ("5.place", "found.append((pointers[0] << 8 | pointers[3], body[au::n], pointers[6:9]))", "found.append((pointers[0] << 8 | pointers[3], body[au::n][:1174] + body[au::n][:1175], pointers[6:9]))"),
    "sdh_interchange/the_row_behind_is_put_together": ("9.columns", "rows[row] + body[width * row : width * (row + 1)] for row", "rows[row] + body[width * ((row + 1) % 9) : width * ((row + 1) % 9 + 1)] for row"),
    "sdh_interchange/west_and_east_exchanged": ("6.through|5.place", "if aus[d] is None else aus[d][au]", "if aus[1 - d] is None else aus[1 - d][au]"),
    # ports
    "sdh_payload/phase_one_byte_late": ("path.offset", "(783 + 3 * offset) % CHUNK", "(784 + 3 * offset) % CHUNK"),
    "sdh_payload/a_slip_is_not_used_up": ("8.clock", "self.waiting[form] -= 1", 'self.waiting[form] -= form == "down"'),
    "sdh_payload/value_0_falls_to_783": ("8.value", 'before, self.value = self.value, (self.value + (1 if form == "up" else -1)) % 783', 'before, self.value = self.value, (self.value + 1) % 783 if form == "up" else self.value - 1 if self.value else 783'),
    "sdh_circuits/swaps_the_ports": ("path.text", 'circuit[f"text_{end}"]', "circuit[f\"text_{'b' if end == 'a' else 'a'}\"]"),
    # what a node of any kind has
    "sdh_terminal/a_frame_leaves_on_the_other_side": ("9.k-bytes|9.columns", "tuple(leaves[d])) for d in (WEST, EAST)]", "tuple(leaves[d])) for d in (WEST, EAST)][::-1]"),
    "sdh_terminal/a_front_begins_one_byte_late": ("7.ais|7.deliver", "{payload[:16].hex()}", "{payload[1:17].hex()}"),
    "sdh_terminal/a_front_has_the_other_sides_value": ("7.ais|7.deliver", 'f"{name} norm {value} {payload', 'f"{name} norm {came[1 - origin[0], *origin[1:]][1]} {payload'),
    "sdh_terminal/a_port_delivers_slot_one": ("7.deliver", 'slot, name = self.circuits[c]["slot"],', "slot, name = 1,"),
    "sdh_terminal/a_side_sends_the_other_ones_k_bytes": ("9.k-bytes", "self.outlets[d].next(self.words[d],", "self.outlets[d].next(self.words[WEST],"),
    "sdh_terminal/a_word_comes_with_the_aus_of_the_round_before": ("5.place", "        return local, heard, [one[2] for one in taken],", "        older, self.older = getattr(self, \"older\", [None, None]), [one[2] for one in taken]\n        return local, heard, older,"),
    "sdh_terminal/an_au_comes_from_the_other_side": ("6.through", "return self.stands_for(1 - d, slot)  # 6.through", "return self.stands_for(d, slot)  # 6.through"),
    "sdh_terminal/deliveries_of_the_round_before_stay": ("7.deliver", "        delivered = [self.deliver(port, read) for port in self.ports]\n", "        now = [self.deliver(port, read) for port in self.ports]\n        delivered, self.older = getattr(self, \"older\", now), now\n"),
    "sdh_terminal/h3_is_not_passed_on": ("8.justification", "h3 if is_down else bytes(3))", "bytes(3))"),
    "sdh_terminal/ones_are_passed_on_as_payload": ("8.ais|9.columns", "        if pointer == ONES:\n            continue", "        if pointer == ONES:\n            body[au::n] = payload or body[au::n]\n            continue"),
    "sdh_terminal/the_pointer_has_the_value_before_the_round": ("8.value|8.increment|8.decrement", "generate(self.generators[key], action, value)", "generate(self.generators[key], action, (value - {\"up\": 1, \"down\": -1}.get(action, 0)) % 783)"),
    # the add-drop multiplexer
    "sdh_node/a_bridge_is_one_round_late": ("4.switches-11|4.switches-lower|4.passes|4.isolated", "        self.state, self.words, rules = step(", "        self.state = getattr(self, \"coming\", self.state)\n        self.coming, self.words, rules = step("),
    "sdh_node/bridges_onto_the_working_au": ("6.through|6.port|6.bridge", 'self.working(d, slot) if kind == "w" else self.protection(d, slot)', "self.protection(d, slot)"),
    "sdh_node/a_failing_side_hears": ("2.fails|2.heard", "        heard, filtered = hears(tuple(one for one, _ in self.brought[d]))\n", "        heard, filtered = hears(tuple(one for one, _ in self.brought[d]))\n        self.last = getattr(self, \"last\", [None, None])\n        heard = self.last[d] = self.last[d] if defect == SF else heard\n"),
    "sdh_node/a_held_node_steps": ("4.held", "        if self.held:\n            self.held -= 1", "        self.held = max(0, self.held - 1)\n        if False:\n            self.held -= 1"),
    "sdh_node/every_slip_is_up": ("8.clock", "self.clocks[port].waiting[words[2]]", 'self.clocks[port].waiting["up"]'),
    # the bench
    "sdh_node_cli/a_command_is_forgotten": ("3.command", '{"forced": FS, "manual": MS, "clear": None}[words[0]]', "None"),
    "sdh_node_cli/the_east_gets_the_frame_from_the_west": ("1.violations|2.word|5.place|6.through", "        came = west, east\n", "        came = west, west if isinstance(east, bytes) and isinstance(west, bytes) else east\n"),
    "sdh_node_cli/the_sides_are_swapped": ("2.word|2.heard|5.place|6.through", "        came = west, east\n", "        came = east, west\n"),
    "sdh_node_cli/darkness_is_not_kept": ("2.fails", '        if came == "dark":  # 2.fails\n            self.before = None  # 1.forgotten\n            return SF,', '        if came == "dark":  # 2.fails\n            self.before = None  # 1.forgotten\n            return 0,'),
    "sdh_node_cli/each_port_is_shown_as_the_first_circuits": ("7.deliver", "        origin, rule = self.stands_for(EAST if end", '        slot = self.circuits[0]["slot"]\n        origin, rule = self.stands_for(EAST if end'),
}  # fmt: skip

# A mistake in two places: the second text, and what stands in its place.
SECOND = {
    "sdh_nodestate/keeps_the_far_end_of_the_word_before": ("        for field, found in rules.items():\n            self.trace[field]", "        self.state = before if before[1] is not None and before[0] == self.state[0] else self.state\n        for field, found in rules.items():\n            self.trace[field]"),
}  # fmt: skip

OF_READING = "only how a stream is read, and where"
OF_ENDING = "only how a run ends or counts"
OF_PLANS = "only which plans are refused, and why"
INSIDE = "only what a node keeps or is told beside its answers"
AS_ANOTHER = "the same in the plain node as another one"
OF_PIECES = "how the proved body goes over pieces and rows, which the plain node has not"
LEFT_OUT = {
    OF_ENDING: (
        "sdh_node_cli/a_bad_record_is_told_as_done", "sdh_node_cli/a_cut_line_is_done", "sdh_node_cli/no_node_is_found", "sdh_node_cli/records_are_counted_from_0",
        "sdh_node_cli/too_long_is_told_as_a_read_fault", "sdh_node_cli/the_rounds_number_is_one_late",
    ),
    AS_ANOTHER: ("sdh_node_cli/the_east_frame_leaves_first", "sdh_node_cli/the_frames_leave_on_the_wrong_sides", "sdh_node/the_far_end_of_the_word_before"),
    OF_PIECES: ("sdh_parity/each_piece_begins_with_the_first_lane", "sdh_payload/b3_without_what_stood_before_the_start", "sdh_node/a_passing_node_keeps_a_frame"),
    OF_READING: (
        "sdh_node_cli/a_byte_behind_a_record_is_asked_for", "sdh_node_cli/the_byte_behind_a_line_is_lost", "sdh_node_cli/dark_is_taken_as_a_frame", "sdh_node_cli/a_byte_after_the_plan_is_read",
        "sdh_node_cli/each_line_is_taken_for_a_rounds", "sdh_node_cli/the_end_of_the_plan_is_looked_for_anywhere", "sdh_node_cli/the_newline_byte_stays_in_the_line",
        "sdh_node_cli/an_answer_is_left_out", "sdh_node_cli/an_answer_is_one_round_late", "sdh_node_cli/a_moment_goes_back", "sdh_node_cli/a_port_of_another_node_slips",
        "sdh_node_cli/a_line_is_read_after_a_failed_write", "sdh_node_cli/a_failed_read_is_out_of_memory", "sdh_node_cli/the_answers_are_kept_back",
        "sdh_node_cli/each_line_with_an_r_is_a_round_of_a_frame",
    ),
    INSIDE: (
        "sdh_squelch/far_ends_exchanged", "sdh_squelch/names_the_next_circuit", "sdh_squelch/leaves_its_rows_empty_and_searches_arcs_beside_them", "sdh_overhead/written_rows_count_as_read",
        "sdh_interchange/payloads_of_ones_where_none_is_put", "sdh_interchange/payloads_stand_here_before_any_frame", "sdh_node/a_held_round_is_calm", "sdh_node/a_waiting_delivery_follows_a_command",
        "sdh_node/a_waiting_delivery_is_gone_once_a_frame_comes", "sdh_terminal/what_landed_before_goes_back",
    ),
    OF_PLANS: ("sdh_node_cli/a_plan_of_two_mebibytes_is_read", "sdh_circuits/overlooks_the_span_from_last_to_first", "sdh_circuits/name_before_trace", "sdh_circuits/takes_a_name_again", "sdh_circuits/takes_offset_783", "sdh_payload/checks_the_trace_before_the_text"),
}  # fmt: skip
