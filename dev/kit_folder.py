"""A folder that stands in for the kit. Checks keep their results beside the kit, so commands of another folder start without results."""
import shutil

# Commands that look for the kit's others in their own folder, so they are copied, not linked.
COMMANDS = ("rt", "rtlib.py")


def stand_in(kit, room, prover=None):
    """Makes the folder and returns its `rt`. If `prover` is given, it is the text of the folder's prover."""
    (room / "bin").mkdir(parents=True)
    for it in kit.iterdir():
        if it.name != "bin":
            (room / it.name).symlink_to(it)
    for it in (kit / "bin").iterdir():
        if it.name in COMMANDS:
            shutil.copy(it, room / "bin")
        elif it.name != "rattle" or prover is None:
            (room / "bin" / it.name).symlink_to(it)
    if prover is not None:
        (room / "bin" / "rattle").write_text(prover)
        (room / "bin" / "rattle").chmod(0o755)
    return room / "bin" / "rt"
