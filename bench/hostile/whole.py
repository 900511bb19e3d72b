"""The kinds of files that load one part of the built program each, each with its maker and what it makes of many: the
items, rows or calls at full size, and 0 where the maker has its own number. See README.md."""
import debug_loads as debug
import frames
import loads
from loads import FOUR_FRAMES, MIB, MOST_SAMPLES

KINDS = {
    "collisions": (loads.collisions, FOUR_FRAMES), "too_many_collisions": (loads.too_many_collisions, MOST_SAMPLES),
    "no_collisions": (loads.no_collisions, FOUR_FRAMES), "short_paths": (loads.short_paths, 0),
    "long_paths": (loads.long_paths, 0), "one_caller": (loads.one_caller, 0),
    "merged_collisions": (loads.merged_collisions, 0), "long_trace": (loads.long_trace, 0),
    "trace_collisions": (loads.trace_collisions, 0),
    "entries": (debug.entries, 60_000_000), "codes": (debug.codes, 300_000),
    "empty_values": (debug.empty_values, 100_000), "names": (debug.names, 30_000_000),
    "late_attributes": (debug.late_attributes, 200_000), "unsized_values": (debug.unsized_values, 1_000_000),
    "short_declarations": (debug.short_declarations, 1_500_000),
    "long_declarations": (debug.long_declarations, 150_000),
    "long_name": (debug.long_name, 8_000_000), "shared_text": (debug.shared_text, 8_000_000),
    "shared_entry": (debug.shared_entry, 8_000_000), "shared_second_entry": (debug.shared_second_entry, 4_000_000),
    "units": (debug.units, 3_500_000), "tables": (debug.tables, 3_000),
    "overlapping_tables": (debug.overlapping_tables, 3_000), "repeated_codes": (debug.repeated_codes, 3_000),
    "long_numbers": (debug.long_numbers, 100_000), "shared_ranges": (debug.shared_ranges, 100_000),
    "kept_ranges": (debug.kept_ranges, 10_000), "overlapping_ranges": (debug.overlapping_ranges, 10_000),
    "live_overlapping_ranges": (debug.live_overlapping_ranges, 10_000), "short_items": (debug.short_items, 20_000_000),
    "deep_entries": (debug.deep_entries, 60_000_000),
    "subprograms": (debug.subprograms, 6_000_000), "nested_ranges": (debug.nested_ranges, 4_000_000),
    "nested_subprograms": (debug.nested_subprograms, 4_000_000), "nested_calls": (debug.nested_calls, 3_000),
    "nested_inlines": (debug.nested_inlines, 2_000_000),
    "directories": (debug.directories, 60_000_000), "files": (debug.files_of_a_byte, 60_000_000),
    "long_file_names": (debug.long_file_names, 8_000_000), "long_path": (debug.long_path, 100_000),
    "copied_rows": (debug.copied_rows, 60_000_000), "shared_program": (debug.shared_program, 2_000),
    "searched_program": (debug.searched_program, 1_000),
    "live_searched_program": (debug.live_searched_program, 1_000), "sequences": (debug.sequences, 3_000_000),
    "falling_rows": (debug.falling_rows, 1_000_000),
    "segments": (loads.segments, 65_000), "symbols": (loads.symbols, 3_000_000),
    "symbol_procedures": (loads.symbol_procedures, 3_000_000), "sampled_symbols": (loads.sampled_symbols, 1_000_000),
    "slices": (loads.slices, 700_000),
    "touched_pages": (loads.touched_pages, 0), "written_output": (loads.written_output, 16_000),
    "readable_output": (loads.readable_output, 2), "samples": (loads.samples, 0),
    "wide_database": (loads.wide_database, 1_000_000),
    **{f"frames_{kind}": (loads.call_frames(kind), 0) for kind in frames.KINDS},
}
