"""Names that a translated program may not use, and fresh ones."""

RESERVED = set(
    """auto break case char const continue default do double else enum extern float for goto if inline int long
    register restrict return short signed sizeof static struct switch typedef union unsigned void volatile while
    _Alignas _Alignof _Atomic _Bool _Complex _Generic _Imaginary _Noreturn _Static_assert _Thread_local
    NULL malloc free input assert assume assume_shape assert_shape assert_empty""".split()
)
OWN = "memcad_"
ENTRY = "memcad_start"


def allowed(name):
    """The name itself, or one beside it where the language of memcad has taken it."""
    return name + "_" if name in RESERVED or name.startswith(OWN) else name


def fresh(name, taken):
    """A name that is not in `taken`, and puts it there."""
    base = made = allowed(name)
    number = 2
    while made in taken:
        made = f"{base}_{number}"
        number += 1
    taken.add(made)
    return made
