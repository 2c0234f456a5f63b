"""The fields of a saved state, in the order in which it has them, by the names of the definitions from which the prover knows its bytes.
Made from these by tests/texts/state_fields.py --write."""
from __future__ import annotations

# For each definition its fields, each with its name and its kind; or the kind of the definition, if it has no fields. A kind is another
# definition, "number", "flag" or "bytes"; "each" is a list, "optional" a value that may be absent, "named" a number that stands for a name.
FIELDS: dict[str, object] = {
    "lines_bytes": [
        ("users", ("each", "number")),
        ("programs", ("each", "program_bytes")),
        ("most_users", "number"),
    ],
    "program_bytes": [
        ("user", "number"),
        ("device", "number"),
    ],
    "system_bytes": [
        ("volumes", ("each", "volume_bytes")),
        ("users", ("each", "user_bytes")),
        ("pool", "pool_bytes"),
        ("files", ("each", "note_bytes")),
        ("is_spent", "flag"),
    ],
    "volume_bytes": [
        ("volser", "bytes"),
        ("cylinders_length", "number"),
        ("cylinders", ("each", "cylinder_bytes")),
    ],
    "cylinder_bytes": ("each", "track_bytes"),
    "track_bytes": [
        ("home", "bytes"),
        ("records", ("each", "record_bytes")),
    ],
    "record_bytes": [
        ("id", "bytes"),
        ("key", "bytes"),
        ("content", "bytes"),
    ],
    "user_bytes": [
        ("machine", "saved_parts_bytes"),
        ("devices", "devices_bytes"),
        ("files", "files_bytes"),
        ("minidisks", ("each", "disk_bytes")),
        ("keys", ("each", "number")),
    ],
    "saved_parts_bytes": [
        ("cpu", "cpu_bytes"),
        ("pending", "pending_bytes"),
        ("subchannels", "subchannels_bytes"),
        ("mode", "mode_bytes"),
        ("output", "printed_bytes"),
    ],
    "cpu_bytes": [
        ("general", ("each", "number")),
        ("control", ("each", "number")),
        ("psw", "psw_bytes"),
    ],
    "psw_bytes": [
        ("system_mask", "number"),
        ("key", "number"),
        ("program_mask", "number"),
        ("extended", "flag"),
        ("machine_check", "flag"),
        ("wait", "flag"),
        ("problem", "flag"),
        ("condition", "number"),
        ("address", "number"),
    ],
    "pending_bytes": [
        ("timer", "flag"),
        ("key", "flag"),
    ],
    "subchannels_bytes": ("each", "subchannel_bytes"),
    "subchannel_bytes": [
        ("address", "number"),
        ("state", "state_bytes"),
        ("attention", "flag"),
        ("last_start", "number"),
    ],
    "state_bytes": [
        ("kind", ("named", ("idle", "working", "pending"))),
        ("word", "number"),
    ],
    "mode_bytes": ("named", ("off", "stopped", "running")),
    "printed_bytes": ("each", "bytes"),
    "devices_bytes": [
        ("places", "places_bytes"),
        ("console", "console_bytes"),
        ("reader", "reader_bytes"),
        ("punch", "punch_bytes"),
        ("printer", "printer_bytes"),
        ("target", "target_bytes"),
        ("user", "number"),
    ],
    "places_bytes": [
        ("console", ("optional", "number")),
        ("reader", ("optional", "number")),
        ("punch", ("optional", "number")),
        ("printer", ("optional", "number")),
    ],
    "console_bytes": [
        ("lines", ("each", "bytes")),
        ("unfinished", "bytes"),
        ("waiting", ("each", "bytes")),
        ("sense", "number"),
        ("wanted", "number"),
        ("ends_line", "flag"),
        ("giving", "bytes"),
    ],
    "reader_bytes": [
        ("sense", "number"),
        ("giving", "bytes"),
    ],
    "punch_bytes": [
        ("entries", "entries_bytes"),
        ("sense", "number"),
        ("is_punching", "flag"),
        ("card", "bytes"),
    ],
    "entries_bytes": ("each", "entry_bytes"),
    "entry_bytes": [
        ("code", "number"),
        ("bytes", "bytes"),
    ],
    "printer_bytes": [
        ("entries", "entries_bytes"),
        ("sense", "number"),
        ("printing", ("optional", "number")),
        ("line", "bytes"),
    ],
    "target_bytes": ("optional", "number"),
    "files_bytes": [
        ("decks", ("each", "deck_bytes")),
        ("place", ("optional", "number")),
        ("punched", ("each", "file_bytes")),
        ("printed", ("each", "file_bytes")),
    ],
    "deck_bytes": [
        ("label", "number"),
        ("sender", "sender_bytes"),
        ("cards", ("each", "bytes")),
    ],
    "sender_bytes": ("optional", "number"),
    "file_bytes": [
        ("target", "target_bytes"),
        ("entries", "entries_bytes"),
    ],
    "disk_bytes": [
        ("address", "number"),
        ("volume", "number"),
        ("minidisk", "minidisk_bytes"),
    ],
    "minidisk_bytes": [
        ("extent", "extent_bytes"),
        ("cylinder", "number"),
        ("head", "number"),
        ("sense", "sense_bytes"),
    ],
    "extent_bytes": [
        ("start", "number"),
        ("count", "number"),
        ("writable", "flag"),
    ],
    "sense_bytes": [
        ("first", "number"),
        ("second", "number"),
    ],
    "pool_bytes": [
        ("supply", "supply_bytes"),
        ("storages", ("each", "storage_bytes")),
    ],
    "supply_bytes": [
        ("owners", ("each", ("optional", "page_bytes"))),
        ("slots", ("each", ("optional", "page_bytes"))),
        ("pins", ("each", "flag")),
        ("order", ("each", "number")),
        ("page_ins", "number"),
    ],
    "page_bytes": [
        ("user", "number"),
        ("page", "number"),
    ],
    "note_bytes": [
        ("user", "number"),
        ("kind_number", ("named", ("deck", "punch", "printer"))),
        ("kind_place", "number"),
    ],
    "user_part_bytes": [
        ("user", "user_bytes"),
        ("supply", "supply_bytes"),
        ("storage", "storage_bytes"),
    ],
}
