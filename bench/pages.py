"""The texts of versions in shared pages, as the tables have them, over python3's sqlite3."""
import hashlib

PAGE_BYTES = 16_384
EQUAL = "SELECT twin FROM page WHERE pkey = ? AND bytes = ?"
TAKEN = "SELECT twin FROM page WHERE pkey = ?"
AGAIN = "UPDATE page SET uses = uses + 1 WHERE pkey = ? AND twin = ?"
ADD_PAGE = "INSERT INTO page (pkey, twin, bytes, uses) VALUES (?, ?, ?, 1)"
ADD_PLACE = "INSERT INTO vpage (org, ws, number, place, pkey, twin) VALUES (?, ?, ?, ?, ?, ?)"
TEXT = """SELECT bytes FROM vpage JOIN page USING (pkey, twin) WHERE org = ? AND ws = ? AND number = ? ORDER BY place"""
NAMED = "SELECT pkey, twin FROM vpage WHERE org = ? AND ws = ? AND number = ?"
REMOVE_PLACES = "DELETE FROM vpage WHERE org = ? AND ws = ? AND number = ?"
USES = "SELECT uses FROM page WHERE pkey = ? AND twin = ?"
LESS = "UPDATE page SET uses = uses - 1 WHERE pkey = ? AND twin = ?"
REMOVE_PAGE = "DELETE FROM page WHERE pkey = ? AND twin = ?"


def put_page(db, page):
    """A use more of the page of these bytes, under the least free number if it is new. Returns its key and number."""
    key = hashlib.sha256(page).digest()
    equal = db.execute(EQUAL, (key, page)).fetchone()
    if equal:
        db.execute(AGAIN, (key, equal[0]))
        return key, equal[0]
    taken = {twin for twin, in db.execute(TAKEN, (key,))}
    twin = next(number for number in range(len(taken) + 1) if number not in taken)
    db.execute(ADD_PAGE, (key, twin, page))
    return key, twin


def add_text(db, org, ws, number, text):
    for place, start in enumerate(range(0, len(text), PAGE_BYTES)):
        db.execute(ADD_PLACE, (org, ws, number, place, *put_page(db, text[start:start + PAGE_BYTES])))


def text_of(db, org, ws, number):
    return b"".join(page for page, in db.execute(TEXT, (org, ws, number)))


def remove_text(db, org, ws, number):
    named = db.execute(NAMED, (org, ws, number)).fetchall()
    db.execute(REMOVE_PLACES, (org, ws, number))
    for name in named:
        db.execute(REMOVE_PAGE if db.execute(USES, name).fetchone()[0] == 1 else LESS, name)
