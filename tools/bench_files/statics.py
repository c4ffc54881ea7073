"""statics.py TABLES FOLDER SOURCE: the Rust's source tree with a table file's words as statics and its bytes as the file that config.rs includes."""
import os
import shutil
import struct
import sys

PARTS = [
    ("COS", 0, 64), ("COS_SLOPE", 64, 64), ("LSP_MEAN", 128, 10), ("LSF_MEAN", 138, 10), ("PITCH_INTERP", 148, 31), ("OUT_FIR", 179, 4), ("OUT_IIR", 183, 3),
    ("FCB_PULSES", 193, 5), ("FCB_SHAPE_SEL", 198, 15), ("FCB_RADIX", 213, 15), ("FCB_RADIX_INV", 228, 15),
    ("FCB_POSITIONS", 243, 600), ("FCB_SHAPES", 843, 640), ("FCB_ALT_A", 1483, 2560), ("FCB_ALT_B", 4043, 640), ("LSF_CB1", 4683, 1280),
]
MODULES = ["codebook", "excitation", "fixed", "lsp", "pitch", "postfilter", "synth", "tables"]


def numbers(words):
    return ", ".join(str(w) for w in words)


def main():
    tables, folder, source = sys.argv[1:]
    celp = os.path.realpath(os.path.join(source, "crates/jr-voice/src/celp"))
    data = open(tables, "rb").read()
    words = struct.unpack("<5963h", data[:11926])
    shutil.rmtree(folder, ignore_errors=True)
    os.makedirs(folder + "/celp/fixed_core")
    os.makedirs(folder + "/models")
    for name in os.listdir(celp):
        if name.endswith(".rs"):
            os.symlink(f"{celp}/{name}", f"{folder}/celp/{name}")
    for name in os.listdir(celp + "/fixed_core"):
        if name != "mod.rs" and name != "tables.rs":
            os.symlink(f"{celp}/fixed_core/{name}", f"{folder}/celp/fixed_core/{name}")
    shutil.copy(os.path.join(os.path.dirname(__file__), "lib.rs"), folder + "/lib.rs")
    with open(folder + "/models/celp_parameters.bin", "wb") as out:
        out.write(data[11926:])
    with open(folder + "/celp/fixed_core/mod.rs", "w") as out:
        out.write("pub const SUBFRAME: usize = 80;\npub const LPC_ORDER: usize = 10;\n")
        out.writelines(f"pub mod {name};\n" for name in MODULES)
    with open(folder + "/celp/fixed_core/tables.rs", "w") as out:
        for name, at, count in PARTS:
            # the two ALT tables are taken by one variable, so they are of one type
            kind = "&[i16]" if "ALT" in name else f"[i16; {count}]"
            out.write(f"pub static {name}: {kind} = {'&' * ('ALT' in name)}[{numbers(words[at:at + count])}];\n")
        # limit and bases are read unsigned
        out.write(f"pub static FCB_INDEX_LIMIT: [u16; 1] = [{words[186] & 65535}];\n")
        out.write(f"pub static FCB_CLASS_BASE: [u16; 6] = [{numbers(w & 65535 for w in words[187:193])}];\n")


main()
