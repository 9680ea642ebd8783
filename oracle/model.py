"""docs/FORMAT.md as a plain program, rule by rule: what chooses the stored cases, and checks that rules and Rust agree.

  read(file, names, cap, room)      the reading: (refusal, value, starts, nodes, attributes, notes), records as tuples
  text(file, names, index, room)    the text question: (refusal, value, text)
  content(file, names, index)       the content question: (0 empty | 1 of the file | 2 of the area, start, length)
  first_value(..)                   the first-value question: (refusal, value, type, data, reference)
  Names(words, area).bad()          refusal 7's value, or None where the rule is kept

`hits` is a set that gathers the rules (and the cases of a rule, as W18-gap) that a reading went through.
`w` names one wrong reading of WRONG, which the model then makes: a stored case is worth keeping if it tells some of them.
The proofs know nothing of this file.
"""
import codecs
import re
import struct

LIMIT = 16_777_216
NODE, ATTRIBUTE = 6, 6  # words of a node, of an attribute
ANDROID = b"http://schemas.android.com/apk/res/android"
NONE = 0xFFFFFFFF
XML = (0x100, 0x101, 0x102, 0x103, 0x104, 0x17F)
START = "A-Z_a-z\u00c0-\u00d6\u00d8-\u00f6\u00f8-\u02ff\u0370-\u037d\u037f-\u1fff\u200c\u200d\u2070-\u218f\u2c00-\u2fef\u3001-\ud7ff" \
        "\uf900-\ufdcf\ufdf0-\ufffd\U00010000-\U000effff"
LATER = START + "\\-.0-9\u00b7\u0300-\u036f\u203f\u2040"
NCNAME = re.compile(f"[{START}][{LATER}]*\\Z")
u16 = struct.Struct("<H").unpack_from
u32 = struct.Struct("<I").unpack_from
header = struct.Struct("<HHI").unpack_from

# label: the rule that it breaks. Not here, because no file tells them: a content size that wraps in the walk, and reading on
# where line and comment are cut.
WRONG = {
    "length_8_refused": "H1", "header_size_ignored": "H2", "file_type_tested": "H3", "total_size_used": "H3",
    "garbage_refused": "H4", "garbage_skips_size": "H4", "garbage_size_under_8_short": "H4", "garbage_noted_first": "H4", "garbage_b_is_size": "H4",
    "second_type_tested": "H5", "garbage_size_for_pool": "H5", "pool_header_size_used": "H5",
    "count_without_styles": "H7", "count_product_wraps": "H7", "count_sum_wraps": "H7", "count_not_floored": "H7", "count_below_zero_wraps": "H7",
    "declared_count_wins": "H8", "note_1_swapped": "H8", "note_1_after_offsets": "H8", "note_1_only_if_fewer": "H8",
    "styles_not_skipped": "H10", "data_at_strings_start": "H11", "data_size_whole": "H11", "map_at_pool_end": "H11", "data_to_styles_start": "H11",
    "offset_at_length_inside": "H12", "note_2_each": "H12", "note_2_without_number": "H12", "note_2_after_map": "H12", "note_2_before_data": "H12",
    "map_type_tested": "H13", "map_optional": "H13", "map_header_size_moves": "H14", "map_header_is_8": "H14", "map_rest_skipped": "H14",
    "map_cut_taken": "H15", "map_short_is_pool": "H15", "pool_short_is_map": "H15", "offset_behind_header": "H15", "first_missing_byte": "H15",
    "offsets_are_42": "H15", "part_without_place": "H15",
    "utf8_flag_bit_0": "T1", "utf8_flags_equal": "T1", "utf8_length_low_first": "T2", "char_length_for_bytes": "T2", "char_length_one_byte": "T2",
    "closing_byte_missing_ok": "T3", "closing_byte_zero": "T3", "utf16_length_low_first": "T4", "utf16_length_short": "T4",
    "closing_unit_missing_ok": "T5", "closing_unit_zero": "T5", "cut_is_no_text": "T6", "outside_is_no_text": "T6", "cut_takes_rest": "T6",
    "data_bound_is_file": "T6", "one_replacement_per_byte": "T7", "one_replacement_for_all": "T7", "surrogates_taken": "T7", "bad_utf8_empty": "T7",
    "replaced_dropped": "T7", "pairs_not_joined": "T8", "bad_utf16_replaced": "T9", "utf16_cut_at_bad": "T9", "text_ends_at_nul": "T10",
    "pool_before_map": "N1", "element_names_pool_only": "N1", "namespaces_pool_only": "N1", "map_hides_always": "N2", "past_pool_no_text": "N2",
    "empty_is_no_text": "N2", "top_byte_ignored": "N6", "prefix_kept": "N7", "two_prefixes_stripped": "N7", "prefix_alone_kept": "N7",
    "repeats_by_index": "N9", "colon_taken": "N10", "digit_first": "N10", "empty_name_valid": "N10", "ascii_names_only": "N11",
    "beyond_ascii_all_valid": "N11", "later_beyond_ascii_first": "N11", "fffd_invalid": "N11", "later_point_refused": "N11",
    "end_at_8_left": "W1", "short_rest_noted": "W1", "range_takes_0x105": "C3", "last_chunk_not_xml": "C3", "header_size_first": "W2",
    "note_4_gives_type": "W2", "content_at_end_passes": "W3", "passing_takes_all": "W3", "passing_stops": "W3", "content_is_size": "W3",
    "note_per_chunk": "W4", "stretch_of_both_sorts": "W4", "stretch_ends_at_cut": "W4", "stretch_over_ordinary": "W4",
    "last_of_stretch": "W4", "line_cut_without_note": "W7", "line_cut_end_closes": "W7",
    "namespace_cut_noted": "W8", "namespace_takes_12": "W8", "cut_end_not_counted": "W9", "cut_end_noted": "W9", "cdata_takes_8": "W10",
    "cdata_cut_noted": "W10", "last_chunk_skipped_by_size": "W11", "last_chunk_without_line": "W11", "last_chunk_silent": "W11",
    "end_skipped_by_size": "W12", "namespace_skipped_by_size": "W12", "cdata_skipped_by_size": "W12",
    "attribute_start_ignored": "W14", "attribute_start_from_16": "W14", "note_6_gives_excess": "W14", "attribute_start_under_20_back": "W14",
    "note_7_without_attributes": "W15", "note_7_under_20": "W15", "note_7_gives_excess": "W15", "note_7_before_6": "B3",
    "attribute_size_10_reads_10": "W16", "attribute_excess_kept": "W16", "attribute_raw_value_for_data": "W16",
    "trailing_without_gap": "W17", "trailing_not_skipped": "W17", "note_8_gives_size": "W17", "size_bounds_attributes": "W17",
    "start_size_wraps": "W17", "cut_start_kept": "W18", "cut_start_silent": "W18", "cut_start_drops_notes": "W18", "note_8_after_skip": "W18",
    "cut_start_goes_on": "W18", "cut_start_notes_names": "W18", "invalid_element_dropped": "W20", "invalid_element_silent": "W20", "note_9_b_always_1": "W20",
    "note_9_b_always_0": "W20", "fixed_index_zero": "W20", "invalid_kept_by_name": "W20", "no_text_noted": "W21", "note_10_once": "W21",
    "invalid_attribute_kept": "W21", "prefix_by_text": "W22", "prefix_0_if_empty": "W22", "prefix_by_index": "W22", "prefix_0_if_invalid": "W22",
    "repeats_kept": "W23", "last_repeat_wins": "W23", "repeats_without_prefix": "W23", "repeats_of_neighbour_only": "W23",
    "lead_collides": "W24", "no_lead": "W24", "lead_where_depth_0": "W24", "lead_last": "W24",
    "depth_below_zero": "W25", "depth_is_open": "W25", "first_element_popped": "W26", "end_by_name": "W26", "end_closes_two": "W26",
    "note_12_never": "W27", "note_12_counts_open": "W27", "note_12_only_if_whole": "W27", "no_start_is_empty": "W28",
    "finished_children_kept": "W29", "nothing_dropped": "W29", "starts_are_nodes": "B15", "dropped_notes_too": "W29", "dropped_attributes_counted": "W29",
    "note_32_after_9": "B3", "note_32_for_no_text": "W30", "note_32_for_cut_start": "W30", "note_32_once": "W30", "note_32_tells_how_many": "W30",
    "note_32_for_attributes": "W30", "own_replacement_is_damage": "W30", "bad_utf16_before_cut": "W30", "hidden_string_is_damage": "W30", "note_32_in_cap_of_9": "B13",
    "node_before_note_9": "B3", "past_cap_due": "B4", "repeat_due": "B4", "dropped_need_no_room": "B5", "places_rounded_up": "B6",
    "nodes_of_five_words": "B6", "attributes_of_five_words": "B6", "ns_0_without_text": "B11", "ns_of_last": "B11", "lead_ns_none": "B11",
    "own_is_android": "W22", "android_by_front": "W22", "own_0_if_empty": "W22", "own_merged_by_name": "W23", "own_by_index": "W23",
    "mode_0_is_1": "B16", "mode_over_2_is_2": "B16", "mode_behind_1": "B16", "comment_for_line": "B9", "line_of_end": "B9", "line_only_if_valid": "B9",
    "first_zero_if_none": "B10", "parent_is_one_up": "B9", "cap_over_all_kinds": "B13", "last_kept": "B13", "cap_plus_1": "B13", "cap_0_read": "B2", "cap_0_is_1": "B2",
    "value_10_is_used": "B1", "value_1_is_0": "B1", "value_3_is_0": "B1",
}


class Names:
    """Lent system names: words (id, start, length) over an area (N4)."""

    def __init__(self, words, area):
        self.words, self.area = list(words), bytes(area)
        self.table = {}
        for k in range(len(self.words) // 3):
            i, s, n = self.words[3 * k:3 * k + 3]
            self.table.setdefault(i, (s, n))

    def bad(self):
        before = 0
        for k in range(len(self.words) // 3):
            i, s, n = self.words[3 * k:3 * k + 3]
            if i >> 24 != 1 or i <= before or n < 1 or s + n > len(self.area) or any(b > 127 for b in self.area[s:s + n]):
                return k
            before = i
        return len(self.words) // 3 if len(self.words) % 3 else None


NO_NAMES = Names([], b"")


class Refused(Exception):
    def __init__(self, number, value=0):
        self.number, self.value = number, value


# the refusal of each part of the head that is short (H15)
PARTS = {"garbage": 41, "header": 42, "second": 42, "numbers": 42, "offsets": 43, "styles": 44, "data": 45, "map-header": 51, "map-ids": 52}


# a reading that would keep no note
OFF = 27, 0, 0, [], [], []


def coarse(answer):
    """An answer as the Rust tells it: of a part that is short only whether it is the pool's or the map's, and no place."""
    return (answer[0] // 10, 0, *answer[2:]) if answer[0] in PARTS.values() else answer


def as_rust(answer):
    """A reading as the Rust tells it, which has no note 32."""
    return (*coarse(answer)[:5], [n for n in answer[5] if n[0] != 32])


def damaged(answer):
    return any(n[0] == 32 for n in answer[5])


class Stop(Exception):
    pass


def lossy(content, w):
    if w == "one_replacement_per_byte":
        return re.sub("[\udc80-\udcff]", "\ufffd", content.decode("utf-8", "surrogateescape")).encode()
    if w == "one_replacement_for_all":
        return re.sub("[\udc80-\udcff]+", "\ufffd", content.decode("utf-8", "surrogateescape")).encode()
    if w == "surrogates_taken":
        return re.sub("[\ud800-\udfff]", "\ufffd", content.decode("utf-8", "surrogatepass")).encode() \
            if b"\xed" in content and not re.search(rb"\xed(?![\x80-\xbf]{2})", content) and _only_surrogates(content) \
            else content.decode("utf-8", "replace").encode()
    if w == "bad_utf8_empty":
        try:
            return content.decode("utf-8").encode()
        except UnicodeDecodeError:
            return b""
    if w == "replaced_dropped":
        return content.decode("utf-8", "ignore").encode()
    return content.decode("utf-8", "replace").encode()


def replaced(content, w=""):
    """How many U+FFFD the text has that the content has not."""
    many = content.decode("utf-8", "replace").count("\ufffd")
    return many if w == "own_replacement_is_damage" else many - content.decode("utf-8", "ignore").count("\ufffd")


def _only_surrogates(content):
    try:
        content.decode("utf-8", "surrogatepass")
        return True
    except UnicodeDecodeError:
        return False


class Head:
    """The head of a file (H), its texts (T) and names (N)."""

    def __init__(self, file, names, note, hits, w):
        self.file, self.names, self.hits, self.w = file, names, hits, w
        self.cache = {}
        n = len(file)
        if n < (9 if w == "length_8_refused" else 8):
            hits.add("H1")
            raise Refused(1, 0 if w == "value_1_is_0" else n)
        kind, size, total = header(file, 0)
        if kind != 3:
            hits.add("H3-type")
        if total != n:
            hits.add("H3-size")
        if size != 8 and w != "header_size_ignored":
            hits.add("H2")
            raise Refused(3, 0 if w == "value_3_is_0" else size)
        if w == "file_type_tested" and kind != 3:
            raise Refused(3, size)
        if w == "total_size_used" and 8 <= total < n:
            self.file = file = file[:total]
            n = total
        self.at = 8
        late = self.pool(note, n)
        self.map(n)
        for x in late:
            note(*x)

    def need(self, many, part):
        if len(self.file) - self.at < many:
            self.hits.add("H15-" + part)
            number, place = PARTS[part], self.at
            if self.w == "map_short_is_pool" and number > 50:
                number = 45
            if self.w == "pool_short_is_map" and number < 50:
                number = 51
            if self.w == "offsets_are_42" and number in (42, 43):
                number = 85 - number
            if self.w == "offset_behind_header":
                place -= 8
            if self.w == "first_missing_byte":
                place = len(self.file)
            raise Refused(number, 0 if self.w == "part_without_place" else place)

    def pool(self, note, n):
        f, w, hits = self.file, self.w, self.hits
        self.need(8, "header")
        begin = self.at
        kind, hs, size = header(f, self.at)
        self.at += 8
        first_size = size
        if kind != 1:
            if w == "garbage_refused":
                raise Refused(42, begin)
            skipped = max(size - 8, 0)
            if w == "garbage_skips_size":
                skipped = size
            if w == "garbage_size_under_8_short" and size < 8:
                raise Refused(41, self.at)
            hits.add("H4-small" if size < 8 else "H4-none" if size == 8 else "H4")
            b = size if w == "garbage_b_is_size" else skipped
            if w == "garbage_noted_first":
                note(0, kind, b)
            self.need(skipped, "garbage")
            self.at += skipped
            if w != "garbage_noted_first":
                note(0, kind, b)
            self.need(8, "second")
            begin = self.at
            kind, hs, size = header(f, self.at)
            self.at += 8
            if kind != 1:
                hits.add("H5-type")
                if w == "second_type_tested":
                    raise Refused(42, begin)
            if w == "garbage_size_for_pool":
                size = first_size
        if hs != 28:
            hits.add("H5-header-size")
            if w == "pool_header_size_used" and hs > 28:
                self.need(20 + hs - 28, "numbers")
                self.at += hs - 28
        self.need(20, "numbers")
        declared, styles, flags, strings_start, styles_start = struct.unpack_from("<5I", f, self.at)
        self.at += 20
        less = min(min(4 * styles, NONE) + 28, NONE)
        if 4 * styles > NONE:
            hits.add("H7-product")
        elif 4 * styles + 28 > NONE:
            hits.add("H7-sum")
        if w == "count_without_styles":
            less = 28
        if w == "count_product_wraps":
            less = min(4 * styles % 2**32 + 28, NONE)
        if w == "count_sum_wraps":
            less = (min(4 * styles, NONE) + 28) % 2**32
        count = max(strings_start - less, 0) // 4
        if strings_start < less:
            hits.add("H7-below")
            if w == "count_below_zero_wraps":
                count = (strings_start - less) % 2**32 // 4
        elif (strings_start - less) % 4:
            hits.add("H7-rest")
            if w == "count_not_floored":
                count += 1
        mismatch = declared != count
        if mismatch:
            hits.add("H8-more" if declared > count else "H8-fewer")
        pair = (1, count, declared) if w == "note_1_swapped" else (1, declared, count)
        told = mismatch and not (w == "note_1_only_if_fewer" and declared > count)
        if told and w != "note_1_after_offsets":
            note(*pair)
        if w == "declared_count_wins":
            count = declared
        self.need(4 * count, "offsets")
        self.offsets = struct.unpack_from(f"<{count}I", f, self.at)
        self.at += 4 * count
        if told and w == "note_1_after_offsets":
            note(*pair)
        if styles:
            hits.add("H10")
            if w != "styles_not_skipped":
                self.need(4 * styles, "styles")
                self.at += 4 * styles
        data = max(size - strings_start, 0)
        if size < strings_start:
            hits.add("H11-below")
        if w == "data_size_whole":
            data = max(size - 28 - 4 * count - 4 * styles, 0)
        if w == "data_to_styles_start" and strings_start < styles_start <= size:
            data = styles_start - strings_start
        if w == "data_at_strings_start":
            self.at = begin + strings_start
        if self.at != begin + strings_start:
            hits.add("H11-elsewhere")
        outside = sum(o > data if w == "offset_at_length_inside" else o >= data for o in self.offsets)
        if data in self.offsets:
            hits.add("H12-at")
        late = []
        told = [(2, 0 if w == "note_2_without_number" else outside, 0)] * (outside if w == "note_2_each" else 1 if outside else 0)
        if outside:
            hits.add("H12" if outside == 1 else "H12-more")
        if w == "note_2_before_data":
            for x in told:
                note(*x)
            told = []
        self.need(data, "data")
        self.data, self.data_end = self.at, self.at + data
        self.at = max(begin + size, self.at) if w == "map_at_pool_end" else self.at + data
        if w == "note_2_after_map":
            late, told = told, []
        for x in told:
            note(*x)
        self.utf8 = flags & 0x100 != 0
        if w == "utf8_flag_bit_0":
            self.utf8 = flags & 0x101 != 0
        if w == "utf8_flags_equal":
            self.utf8 = flags == 0x100
        if flags & ~0x100:
            hits.add("T1-other-bits")
        hits.add("T1-utf8" if self.utf8 else "T1-utf16")
        return late

    def map(self, n):
        f, w, hits = self.file, self.w, self.hits
        self.need(8, "map-header")
        kind, hs, size = header(f, self.at)
        if kind != 0x180:
            hits.add("H13")
            if w == "map_type_tested":
                raise Refused(51, self.at)
            if w == "map_optional":
                self.ids = ()
                return
        self.at += 8
        if hs != 8:
            hits.add("H14-more" if hs > 8 else "H14-less")
        if w == "map_header_size_moves" and hs > 8:
            self.need(hs - 8, "map-ids")
            self.at += hs - 8
        many = max(size - (8 if w == "map_header_is_8" else hs), 0) // 4
        if max(size - hs, 0) % 4:
            hits.add("H14-rest")
        if w == "map_cut_taken":
            many = min(many, (n - self.at) // 4)
        self.need(4 * many, "map-ids")
        self.ids = struct.unpack_from(f"<{many}I", f, self.at)
        self.at += 4 * many
        if w == "map_rest_skipped":
            self.at = min(self.at + max(size - hs, 0) % 4, n)

    # -- texts

    def split(self, i):
        """The place of string i's content in the file, or None where it is cut or outside (T2 to T6)."""
        f, w, hits = self.file, self.w, self.hits
        end = len(f) if w == "data_bound_is_file" else self.data_end
        at = self.data + self.offsets[i]
        if at >= end:
            hits.add("T6-outside")
            return None
        if self.utf8:
            lengths = []
            for k in (0, 1):
                if at + 1 > end:
                    hits.add("T6-length")
                    return None
                length = f[at]
                at += 1
                if length & 0x80 and not (k == 0 and w == "char_length_one_byte"):
                    if at + 1 > end:
                        hits.add("T6-length")
                        return None
                    hits.add("T2-long")
                    length = (length & 0x7F) | f[at] << 7 if w == "utf8_length_low_first" else (length & 0x7F) << 8 | f[at]
                    at += 1
                lengths.append(length)
            if lengths[0] != lengths[1]:
                hits.add("T2-differ")
            many = lengths[0] if w == "char_length_for_bytes" else lengths[1]
            closing, missing, zero = 1, w == "closing_byte_missing_ok", w == "closing_byte_zero"
        else:
            if at + 2 > end:
                hits.add("T6-length")
                return None
            many = u16(f, at)[0]
            at += 2
            if many & 0x8000 and w != "utf16_length_short":
                if at + 2 > end:
                    hits.add("T6-length")
                    return None
                hits.add("T4-long")
                low = u16(f, at)[0]
                many = (many & 0x7FFF) | low << 15 if w == "utf16_length_low_first" else (many & 0x7FFF) << 16 | low
                at += 2
            many *= 2
            closing, missing, zero = 2, w == "closing_unit_missing_ok", w == "closing_unit_zero"
        if at + many + closing > end:
            hits.add("T6-content" if at + many > end else "T6-closing")
            if w == "cut_takes_rest":
                return at, min(at + many, end)
            if not (missing and at + many <= end):
                return None
        elif any(f[at + many:at + many + closing]):
            hits.add("T3-closing" if self.utf8 else "T5-closing")
            if zero:
                return None
        return at, at + many

    def system(self, i):
        """The name of map entry i, as a place in the area, stripped (N6, N7); None where it has none."""
        hits, w = self.hits, self.w
        if i >= len(self.ids):
            return None
        r = self.ids[i]
        if w == "top_byte_ignored":
            r = r & 0xFFFFFF | 1 << 24
        place = self.names.table.get(r)
        if place is None:
            hits.add("N6-none" if r >> 24 == 1 else "N6-top")
            return None
        s, n = place
        hits.add("N6")
        prefix, area = b"android:attr/", self.names.area
        if w == "prefix_kept":
            return s, n
        while area[s:s + n].startswith(prefix):
            if n == 13 and w == "prefix_alone_kept":
                break
            s, n = s + 13, n - 13
            hits.add("N7-empty" if n == 0 else "N7")
            if area[s:s + n].startswith(prefix):
                hits.add("N7-twice")
            if w != "two_prefixes_stripped":
                break
        return s, n

    def text(self, i, use=""):
        key = (i, use) if use else i
        if key not in self.cache:
            self.cache[key] = self.find(i, use)
        return self.cache[key]

    def find(self, i, use):
        w, hits = self.w, self.hits
        inside = i < len(self.offsets)
        if not (w == "element_names_pool_only" and use == "element") and not (w == "namespaces_pool_only" and use == "namespace") \
                and not (w == "pool_before_map" and inside) and not (w == "past_pool_no_text" and not inside):
            place = self.system(i)
            if place is not None:
                s, n = place
                hits.add("N2-hides" if inside else "N2-past-pool")
                return self.names.area[s:s + n]
            if w == "map_hides_always" and i < len(self.ids):
                return None
        if not inside:
            hits.add("N1-none")
            return None
        if w == "outside_is_no_text" and self.data + self.offsets[i] >= self.data_end:
            return None
        place = self.split(i)
        if place is None:
            return None if w == "cut_is_no_text" else b""
        t = self.decoded(self.file[place[0]:place[1]])
        if w == "text_ends_at_nul":
            t = t.split(b"\0")[0]
        if w == "empty_is_no_text" and not t:
            return None
        return t

    def decoded(self, content):
        w, hits = self.w, self.hits
        if self.utf8:
            t = lossy(content, w)
            if t != content:
                hits.add("T7-surrogate" if re.search(rb"\xed[\xa0-\xbf]", content) else "T7")
            return t
        try:
            t = content.decode("utf-16-le")
        except UnicodeDecodeError:
            hits.add("T9")
            t = content.decode("utf-16-le", "replace") if w == "bad_utf16_replaced" else \
                re.split("[\ud800-\udfff]", content.decode("utf-16-le", "surrogatepass"))[0] if w == "utf16_cut_at_bad" else ""
        if any(ord(c) > 0xFFFF for c in t):
            hits.add("T8-pair")
            if w == "pairs_not_joined":
                t = re.sub("[\U00010000-\U0010ffff]", "\ufffd\ufffd", t)
        return t.encode()

    def state(self, i):
        """The state of a text, 0 whole, 1 replaced characters, 2 bad UTF-16, 3 cut or outside, and how many were replaced (T11)."""
        w = self.w
        if self.system(i) is not None and w != "hidden_string_is_damage":
            return 0, 0
        if i >= len(self.offsets):
            return 0, 0
        place = self.split(i)
        if place is None:
            return (2 if w == "bad_utf16_before_cut" and not self.utf8 else 3), 0
        content = self.file[place[0]:place[1]]
        if not self.utf8:
            try:
                content.decode("utf-16-le")
            except UnicodeDecodeError:
                return 2, 0
            return 0, 0
        many = replaced(content, w)
        return int(many > 0), many

    def content(self, i):
        place = self.system(i)
        if place is not None:
            return (2, *place) if place[1] else (0, 0, 0)
        if i >= len(self.offsets):
            return 0, 0, 0
        place = self.split(i)
        if place is None or place[0] == place[1]:
            return 0, 0, 0
        return 1, place[0], place[1] - place[0]


def valid(t, w, hits):
    """N10, N11."""
    s = t.decode()
    if w == "colon_taken":
        s = s.replace(":", "_")
    if w == "digit_first" and s[:1].isdigit():
        s = "_" + s
    if w == "empty_name_valid" and not s:
        return True
    if not s.isascii():
        if w == "ascii_names_only":
            return False
        if w == "beyond_ascii_all_valid":
            s = re.sub("[^\0-\x7f]", "_", s)
        if w == "later_beyond_ascii_first" and re.match("[\u00b7\u0300-\u036f\u203f\u2040]", s):
            s = "_" + s
        if w == "fffd_invalid":
            s = s.replace("\ufffd", " ")
    if w == "later_point_refused":
        s = s.replace(".", " ")
    ok = NCNAME.match(s) is not None
    hits.add(("N11-valid" if ok else "N11-invalid") if not s.isascii() else "N10-valid" if ok else "N10-empty" if not s else "N10-invalid")
    return ok


class Walk:
    """The walk (W) into tables with room (B)."""

    def __init__(self, file, names, cap, room, hits, w, mode=1):
        self.hits, self.w, self.mode = hits, w, mode
        self.cap = cap + 1 if w == "cap_plus_1" or w == "cap_0_is_1" and cap == 0 else cap
        up = w == "places_rounded_up"
        node = 5 if w == "nodes_of_five_words" else NODE
        attribute = 5 if w == "attributes_of_five_words" else ATTRIBUTE
        self.node_places, self.attribute_places, self.note_places = (room[0] + up * (node - 1)) // node, (room[1] + up * (attribute - 1)) // attribute, room[2]
        self.counts = dict.fromkeys([*range(13), 32], 0)
        self.notes, self.nodes, self.attributes = [], [], []
        self.starts, self.depth, self.open = 0, 0, []
        self.seen_10, self.seen_32 = set(), set()
        self.head = Head(file, names, self.note, hits, w)
        self.walk(self.head.file)

    def note(self, kind, a=0, b=0):
        w, hits = self.w, self.hits
        hits.add(f"note-{kind}")
        count = len(self.notes) if w == "cap_over_all_kinds" else self.counts[9 if w == "note_32_in_cap_of_9" and kind == 32 else kind]
        if count >= self.cap:
            hits.add("B13")
            if w == "past_cap_due" and len(self.notes) >= self.note_places:
                raise Refused(10, self.note_places)
            if w == "last_kept" and self.cap:
                k = max(i for i, x in enumerate(self.notes) if x[0] == kind)
                self.notes[k] = (kind, a, b)
            return
        if len(self.notes) >= self.note_places:
            hits.add("B1-10")
            raise Refused(10, len(self.notes) + 1 if w == "value_10_is_used" else self.note_places)
        self.counts[9 if w == "note_32_in_cap_of_9" and kind == 32 else kind] += 1
        self.notes.append((kind, a, b))

    def node(self, record):
        if len(self.nodes) >= self.node_places and self.w != "dropped_need_no_room":
            self.hits.add("B1-8")
            raise Refused(8, self.node_places)
        self.nodes.append(record)

    def attribute(self, record):
        if len(self.attributes) >= self.attribute_places and self.w != "dropped_need_no_room":
            self.hits.add("B1-9")
            raise Refused(9, self.attribute_places)
        self.attributes.append(record)

    def walk(self, f):
        w, hits = self.w, self.hits
        at, n = self.head.at, len(f)
        self.cut = False
        last = None
        try:
            while n - at >= (9 if w == "end_at_8_left" else 8):
                kind, hs, size = header(f, at)
                xml = kind in XML
                if not xml and 0x105 <= kind < 0x17F:
                    hits.add("C3-between")
                    xml = w == "range_takes_0x105"
                if w == "last_chunk_not_xml" and kind == 0x17F:
                    xml = False
                sort = 0 if not xml else 1 if hs != 16 else 2
                if w == "header_size_first" and hs != 16:
                    sort = 1
                if sort < 2:
                    content = max(size - 8, 0)
                    if size < 8:
                        hits.add("C2-small")
                    if w == "content_is_size":
                        content = size
                    passes = content > n - at - 8 or w == "content_at_end_passes" and content == n - at - 8 > 0
                    if 0 < content == n - at - 8:
                        hits.add("W3-at-end")
                    hits.add(f"W2-{sort}" + ("-passes" if passes else ""))
                    number = kind if sort == 0 or w == "note_4_gives_type" else hs
                    if kind == 0x17F and sort == 1:
                        hits.add("W2-last-chunk")
                    if last is not None and last[1] == at:
                        hits.add("W4-same" if last[0] == sort else "W4-other")
                        if last[2]:
                            hits.add("W4-after-cut")
                    fresh = last is None or last[1] != at and w != "stretch_over_ordinary" or last[0] != sort and w != "stretch_of_both_sorts" \
                        or w == "note_per_chunk" or last[2] and w == "stretch_ends_at_cut"
                    if fresh:
                        self.note(3 + sort, number)
                    elif w == "last_of_stretch" and self.notes and self.notes[-1][0] == 3 + sort:
                        self.notes[-1] = (3 + sort, number, 0)
                    if passes and w == "passing_stops":
                        raise Stop
                    at = n if passes and w == "passing_takes_all" else at + 8 + (0 if passes else content)
                    last = sort, at, passes
                    continue
                begin = at
                at += 8
                if w == "last_chunk_without_line" and kind == 0x17F:
                    self.note(5, kind)
                    continue
                if n - at < 8:
                    hits.add(f"W7-{kind:x}")
                    if w == "line_cut_end_closes" and kind == 0x103:
                        self.end()
                    if w != "line_cut_without_note":
                        self.note(11)
                    raise Stop
                at += 8
                if kind == 0x102:
                    at = self.start(f, at, n, size)
                elif kind == 0x103:
                    hits.add("W9")
                    if n - at < 8:
                        hits.add("W9-cut")
                        if w == "cut_end_noted":
                            self.note(11)
                    if w == "line_of_end" and self.open:
                        self.nodes[self.open[-1]][5] = u32(f, begin + 8)[0]
                    if not (w == "cut_end_not_counted" and n - at < 8):
                        self.end(u32(f, at + 4)[0] if n - at >= 8 else None)
                    at = self.plain(f, at, n, 8, size, "end_skipped_by_size", begin)
                elif kind == 0x104:
                    hits.add("W10")
                    if n - at < 12:
                        hits.add("W10-cut")
                        if w == "cdata_cut_noted":
                            self.note(11)
                    at = self.plain(f, at, n, 8 if w == "cdata_takes_8" else 12, size, "cdata_skipped_by_size", begin)
                elif kind in (0x100, 0x101):
                    hits.add(f"W8-{kind:x}")
                    if n - at < 8:
                        hits.add("W8-cut")
                        if w == "namespace_cut_noted":
                            self.note(11)
                    at = self.plain(f, at, n, 12 if w == "namespace_takes_12" else 8, size, "namespace_skipped_by_size", begin)
                elif kind == 0x17F:
                    if size > 16:
                        hits.add("W11-size")
                    if w != "last_chunk_silent":
                        self.note(5, kind)
                    if w == "last_chunk_skipped_by_size":
                        at = min(max(begin + size, at), n)
                else:
                    at = min(begin + max(size, 16), n)
            if w == "short_rest_noted" and at < n:
                self.note(11)
            if at < n:
                hits.add("W1-rest")
        except Stop:
            self.cut = True
        open_ = len(self.open)
        depth = open_ if w == "depth_is_open" else self.depth
        if self.depth != open_ > 1:
            hits.add("W26-differ")
        if depth and w != "note_12_never" and not (w == "note_12_only_if_whole" and self.cut):
            self.note(12, open_ if w == "note_12_counts_open" else depth)
        if not self.starts:
            hits.add("W28")
            if w != "no_start_is_empty":
                raise Refused(6)
        if open_ > 1 and w != "nothing_dropped":
            self.drop(self.open[1])

    def plain(self, f, at, n, many, size, by_size, begin):
        if begin + size > at + many:
            self.hits.add("W12-larger")
            if self.w == by_size:
                return min(begin + size, n)
        return at + many if n - at >= many else n

    def start(self, f, at, n, size):
        w, hits = self.w, self.hits
        notes_before, counts_before = len(self.notes), dict(self.counts)
        begin = at

        def short(part):
            hits.add("W18-" + part)
            if w == "cut_start_drops_notes":
                del self.notes[notes_before:]
                self.counts = counts_before
            if w == "cut_start_notes_names" and part != "fixed":
                index = u32(f, begin + 4)[0]
                t = self.head.text(index)
                if t is None or not valid(t, w, hits):
                    self.note(9, index, int(t is not None))
            if w == "note_32_for_cut_start" and part != "fixed":
                index = u32(f, begin + 4)[0]
                self.damage(index, self.head.text(index))
            if w != "cut_start_silent":
                self.note(11)
            if w == "cut_start_kept" and part != "fixed":
                self.element(f, begin, [])
            raise Stop

        if n - at < 20:
            if w == "cut_start_goes_on":
                return at
            short("fixed")
        start_, size_, count = struct.unpack_from("<3H", f, at + 8)
        at += 20
        gap = max(start_ - 20, 0)
        if start_ < 20:
            hits.add("W14-under")
        if w == "attribute_start_from_16":
            gap = max(start_ - 16, 0) if start_ > 20 else 0
        big = count != 0 and size_ > 20
        if w == "note_7_without_attributes":
            big = size_ > 20
        if w == "note_7_under_20":
            big = count != 0 and size_ != 20
        if size_ > 20 and not count:
            hits.add("W15-none")
        if big and w == "note_7_before_6":
            self.note(7, size_)
        if gap:
            self.note(6, gap if w == "note_6_gives_excess" else start_)
            if w != "attribute_start_ignored":
                if n - at < gap:
                    short("gap")
                at += gap
        if w == "attribute_start_under_20_back" and start_ < 20:
            at -= 20 - start_
        if big and w != "note_7_before_6":
            self.note(7, size_ - 20 if w == "note_7_gives_excess" else size_)
        step = max(size_, 20)
        if w == "attribute_size_10_reads_10" and size_:
            step = size_
        if w == "attribute_excess_kept":
            step = 20
        if size_ < 20 and count:
            hits.add("W16-under")
        if size_ > 20 and count:
            hits.add("W16-over")
        if w == "size_bounds_attributes":
            count = min(count, max(begin - 16 + size - at, 0) // step)
        places = []
        for _ in range(count):
            if n - at < step:
                short("attributes")
            places.append(at)
            at += step
        read = at - begin
        if w == "trailing_without_gap":
            read -= gap
        inner = max(size - 16, 0)
        if size < 16:
            hits.add("W17-under-16")
            if w == "start_size_wraps":
                inner = size - 16 + 2**32
        if inner < read:
            hits.add("W17-smaller")
        more = max(inner - read, 0)
        if more:
            if w != "note_8_after_skip":
                self.note(8, size if w == "note_8_gives_size" else more)
            if w != "trailing_not_skipped":
                if n - at < more:
                    short("trailing")
                at += more
            if w == "note_8_after_skip":
                self.note(8, more)
        self.element(f, begin, places)
        return at

    def element(self, f, begin, places):
        w, hits, head = self.w, self.hits, self.head
        hits.add("W19")
        index = u32(f, begin + 4)[0]
        t = head.text(index, "element" if w == "element_names_pool_only" else "")
        fixed = 0
        me = len(self.nodes)
        parent = self.open[-1] if self.open else NONE
        if w == "parent_is_one_up" and self.open:
            parent = me - 1
        first = len(self.attributes)
        bad = t is None or not valid(t, w, hits)
        if w != "note_32_after_9":
            self.damage(index, t)
        if bad and not (w == "invalid_kept_by_name" and t):
            fixed = 1
            hits.add("W20-text" if t else "W20-empty" if t is not None else "W20-none")
            if w == "invalid_element_dropped":
                self.note(9, index, int(t is not None))
                return
            if w == "node_before_note_9":
                self.room_for_node()
            if w != "invalid_element_silent":
                self.note(9, index, 1 if w == "note_9_b_always_1" else 0 if w == "note_9_b_always_0" else int(t is not None))
        if w == "note_32_after_9":
            self.damage(index, t)
        self.starts += 1
        line = 0 if fixed and w == "line_only_if_valid" else u32(f, begin - (4 if w == "comment_for_line" else 8))[0]
        self.node([0 if fixed and w == "fixed_index_zero" else index, fixed, parent, first, 0, line])
        lead = not self.open
        if w == "lead_where_depth_0":
            lead = self.depth == 0
        if w == "no_lead":
            lead = False
        kept = []
        if lead and w != "lead_last":
            hits.add("W24")
            self.attribute([me, 2, 0, 3, 0, NONE if w == "lead_ns_none" else 0])
            if w == "lead_collides":
                kept += [(1, b"android", None, 0), (0, b"android", None, 0)]
        for at in places:
            self.one(f, at, me, kept)
        if lead and w == "lead_last":
            self.attribute([me, 2, 0, 3, 0, NONE if w == "lead_ns_none" else 0])
        many = len(self.attributes) - first
        if not many:
            hits.add("B10")
            if w == "first_zero_if_none":
                self.nodes[me][3] = 0
        self.nodes[me][4] = many
        self.open.append(me)
        self.depth += 1

    def damage(self, index, t):
        """Note 32: the text of a name is not whole (W30)."""
        w = self.w
        if t is None:
            if w == "note_32_for_no_text":
                self.note(32, index, 3)
            return
        state, many = self.head.state(index)
        if state and not (w == "note_32_once" and index in self.seen_32):
            self.hits.add(f"W30-{state}")
            self.note(32, index, many if w == "note_32_tells_how_many" and state == 1 else state)
        self.seen_32.add(index)

    def room_for_node(self):
        if len(self.nodes) >= self.node_places:
            raise Refused(8, self.node_places)

    def one(self, f, at, me, kept):
        w, hits, head = self.w, self.hits, self.head
        ns, index, raw, _, _, kind, data = struct.unpack_from("<IIIHBBI", f, at)
        if w == "attribute_raw_value_for_data" and kind == 3:
            data = raw
        t = head.text(index)
        if t is None:
            hits.add("W21-none")
            if w == "no_text_noted":
                self.note(10, index)
            return
        if w == "note_32_for_attributes":
            self.damage(index, t)
        if not valid(t, w, hits):
            hits.add("W21-again" if index in self.seen_10 else "W21-invalid")
            if not (w == "note_10_once" and index in self.seen_10):
                self.note(10, index)
            self.seen_10.add(index)
            if w != "invalid_attribute_kept":
                return
        nt = head.text(ns, "namespace" if w == "namespaces_pool_only" else "")
        prefix = int(nt is not None)
        hits.add("W22-none" if nt is None else "W22-empty" if not nt else "W22" if nt == ANDROID else "W22-other")
        if w == "prefix_by_text":
            prefix = int(nt == ANDROID)
        if w == "prefix_0_if_empty":
            prefix = int(bool(nt))
        if w == "prefix_by_index":
            prefix = int(ns != NONE)
        if w == "prefix_0_if_invalid" and nt is not None:
            prefix = int(NCNAME.match(nt.decode()) is not None or b"/" in nt)
        if self.mode == 2:
            android = nt is not None and nt.startswith(ANDROID) if w == "android_by_front" else nt == ANDROID
            prefix = 0 if not nt and (nt is None or w == "own_0_if_empty") else 1 if android or w == "own_is_android" else 3
            hits.add(f"W22-apart-{prefix}")
        space = None if prefix != 3 or w == "own_merged_by_name" else ns if w == "own_by_index" else nt
        key = prefix, index if w == "repeats_by_index" else t, space
        if w == "repeats_without_prefix":
            key = 0, t, None
        at_repeat = next((k for k in kept if k[:3] == key), None)
        if w == "repeats_of_neighbour_only":
            at_repeat = kept[-1] if kept and kept[-1][:3] == key else None
        if prefix == 3 and any(k[0] == 3 and k[1] == t and k[2] != nt for k in kept):
            hits.add("W23-other-space")
        if any(k[1] == t and k[0] != prefix for k in kept):
            hits.add("W23-prefix")
        if at_repeat is not None and w != "repeats_kept":
            hits.add("W23")
            if self.attributes and any(a[0] == me and a[1] == prefix and a[2] != index and head.text(a[2]) == t for a in self.attributes):
                hits.add("W23-other-index")
            if w == "repeat_due" and len(self.attributes) >= self.attribute_places:
                raise Refused(9, self.attribute_places)
            if w == "last_repeat_wins":
                self.attributes[at_repeat[3]][2:] = [index, kind, data, ns]
            if w == "ns_of_last":
                self.attributes[at_repeat[3]][5] = ns
            return
        if me == 0 and t == b"android":
            hits.add(f"W24-beside-{prefix}")
        kept.append((*key, len(self.attributes)))
        self.attribute([me, prefix, index, kind, data, 0 if w == "ns_0_without_text" and nt is None else ns])

    def end(self, name=None):
        w, hits = self.w, self.hits
        if not self.depth:
            hits.add("W25-floor")
        self.depth = self.depth - 1 if self.depth or w == "depth_below_zero" else 0
        if not self.open:
            hits.add("W26-none")
        elif len(self.open) == 1:
            hits.add("W26-first")
            if w == "first_element_popped":
                self.open.pop()
        else:
            hits.add("W26")
            if w == "end_by_name" and name is not None and self.nodes[self.open[-1]][0] != name:
                return
            self.open.pop()
            if w == "end_closes_two" and len(self.open) > 1:
                self.open.pop()

    def drop(self, second):
        w, hits = self.w, self.hits
        hits.add("W29" if second == len(self.nodes) - 1 else "W29-more")
        if any(i > second and i not in self.open for i in range(len(self.nodes))):
            hits.add("W29-finished")
        if w == "finished_children_kept":
            keep = [i for i in range(len(self.nodes)) if i < second or i not in self.open]
            self.nodes = [self.nodes[i] for i in keep]
            return
        if w == "dropped_notes_too":
            self.notes = [x for x in self.notes if x[0] not in (9, 10)]
        if w != "dropped_attributes_counted":
            del self.attributes[self.nodes[second][3]:]
        del self.nodes[second:]


def read(file, names=NO_NAMES, cap=16, room=(1 << 40, 1 << 40, 1 << 40), hits=None, w="", trusted=False, mode=1):
    """The reading (B). `trusted` leaves out the check of the names, where it was made once before."""
    hits = set() if hits is None else hits
    bad = None if trusted else names.bad()
    if len(file) > LIMIT:
        hits.add("B1-2")
        return 2, 0, 0, [], [], []
    if cap == 0 and w not in ("cap_0_read", "cap_0_is_1"):
        hits.add("B1-27")
        return OFF
    if bad is not None:
        hits.add("B1-7")
        return 7, bad, 0, [], [], []
    if w == "mode_0_is_1" and mode == 0 or w == "mode_over_2_is_2" and mode > 2:
        mode = min(mode + 1, 2)
    if mode not in (1, 2) and not (w == "mode_behind_1" and len(file) < 8):
        hits.add("B1-16")
        return 16, mode, 0, [], [], []
    try:
        r = Walk(file, names, cap, room, hits, w, mode)
        if w == "dropped_need_no_room":
            if len(r.nodes) > room[0] // NODE:
                raise Refused(8, room[0] // NODE)
            if len(r.attributes) > room[1] // ATTRIBUTE:
                raise Refused(9, room[1] // ATTRIBUTE)
    except Refused as e:
        hits.add(f"B1-{e.number}")
        return e.number, e.value, 0, [], [], []
    starts = len(r.nodes) if w == "starts_are_nodes" else r.starts
    return 0, 0, starts, [tuple(x) for x in r.nodes], [tuple(x) for x in r.attributes], r.notes


def opened(file, names, hits, w, trusted=False):
    if len(file) > LIMIT:
        raise Refused(2)
    bad = None if trusted else names.bad()
    if bad is not None:
        raise Refused(7, bad)
    return Head(file, names, lambda *_: None, hits, w)


def text(file, names, index, room, hits=None, w=""):
    """The text question (Q1, Q2)."""
    try:
        t = opened(file, names, set() if hits is None else hits, w).text(index)
        if t is None:
            raise Refused(12)
        if len(t) > room:
            raise Refused(11, len(t))
        return 0, 0, t
    except Refused as e:
        return e.number, e.value, b""


def damage(file, names, index, room):
    """State and count of the text question's answer (Q2): 0 and 0 where it is refused."""
    return opened(file, names, set(), "").state(index) if text(file, names, index, room)[0] == 0 else (0, 0)


def content(file, names, index):
    """The content question (Q3)."""
    try:
        return opened(file, names, set(), "").content(index)
    except Refused:
        return 0, 0, 0


def first_value(file, names, nodes, attributes, tag, name, node_count, attribute_count, trusted=False):
    """The first-value question (Q4 to Q8): nodes and attributes are lists of words."""
    try:
        head = opened(file, names, set(), "", trusted)
        if NODE * node_count > len(nodes) or ATTRIBUTE * attribute_count > len(attributes):
            raise Refused(13, node_count)
        for i in range(node_count):
            if nodes[NODE * i + 3] + nodes[NODE * i + 4] > attribute_count:
                raise Refused(13, i)
        for i in range(node_count):
            index, fixed, _, first, count, _ = nodes[NODE * i:NODE * i + NODE]
            if (b"invalid-element" if fixed == 1 else head.text(index)) != tag:
                continue
            for k in range(first, first + count):
                _, prefix, index, kind, data, _ = attributes[ATTRIBUTE * k:ATTRIBUTE * (k + 1)]
                if (b"android" if prefix == 2 else head.text(index)) == name:
                    return 0, 0, kind, data, int(kind in (1, 7))
            break
        raise Refused(12)
    except Refused as e:
        return e.number, e.value, 0, 0, 0
