"""Files spoiled at up to three random places.

Each spoiler is called with the random numbers, the file, and the meta and pages that it opens to. Some
do nothing to some files, and some do nothing that an opening looks at.
"""
import spoil_log as log
import spoil_pages as place
import spoil_supers as supers
from opening import left_by, opened

# how often each is taken, beside the others
OFTEN = {
    supers.super_field: 7, supers.super_numbers: 3, supers.super_run: 2, supers.super_rest: 2,
    supers.super_lost: 3, supers.super_next: 4, supers.very_high: 2, supers.free_in_use: 2,
    log.frame_gate: 3, log.frame_length: 3, log.log_byte: 5, log.frames_moved: 4, log.frame_added: 2,
    log.group_op: 5, log.group_page_images: 5, log.group_added: 6, log.page_added: 5,
    place.page_broken: 10, place.page_byte: 4, place.hole_filled: 2, place.second_whole: 2,
    place.no_whole: 3, place.leaf_parted: 4, place.cut_moved: 4, place.size_changed: 5, place.unread: 3,
}


def spoiled(rng, file, meta, pages):
    """The bytes of the file, spoiled at up to three places; or what an opening of them leaves."""
    made = file.copy()
    for spoiler in rng.choices(list(OFTEN), list(OFTEN.values()), k=rng.choice((0, 0, 1, 1, 1, 1, 1, 2, 2, 3))):
        spoiler(rng, made, meta, pages)
    disk = made.spelled()
    return left_by(opened(disk).calls, disk) if rng.random() < 0.05 else disk
