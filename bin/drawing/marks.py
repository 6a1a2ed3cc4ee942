"""The signs of what happened to an instance."""
from .svg import thousands

# Each sign around its middle, and what it says in the legend.
SIGNS = {
    "accused": ('<path class="sign" d="M-4.5 -4h9L0 4.5z"/>', "accused"),
    "discharged": ('<circle class="sign" r="4"/>', "discharged"),
    "heir": ('<path class="sign" d="M0 -5L5 0L0 5L-5 0z"/>', "became heir"),
    "tookover": ('<path class="full" d="M0 -5L5 0L0 5L-5 0z"/>', "took over"),
    "left": (
        '<path class="rim" d="M-4 -4L4 4M-4 4L4 -4"/><path class="sign" d="M-4 -4L4 4M-4 4L4 -4"/>', "left the ring",
    ),
    "returned": ('<path class="sign" d="M4 -4L-4 0L4 4z"/>', "flight returned"),
    "start": ('<path class="full" d="M-1 -5v10h2v-10z"/>', "started"),
    "stopped": ('<path class="full" d="M-4 -4h8v8h-8z"/>', "stopped"),
    "silent": ('<path class="sign" d="M-3.5 -3.5h7v7h-7z"/>', "its last line: killed, or it goes on"),
    "promised": ('<path class="bare" d="M-.75 -3.5h1.5v7h-1.5z"/>', "promised an epoch"),
}


def definitions(kinds):
    return "".join(f'<g id="m-{kind}">{SIGNS[kind][0]}</g>' for kind in SIGNS if kind in kinds)


def gathered(sheet, placed):
    """Marks of one kind that fall together are one. Gives (x, y, kind, title) of each.

    `placed` has each mark with its y and its lane: marks of two lanes do not fall together.
    """
    found = {}
    for mark, y, lane in placed:
        x = sheet.axis.x(mark.begins)
        if sheet.is_seen(mark.begins[0]):
            key = (mark.kind, lane, round(x / sheet.level.together))
            found.setdefault(key, []).append((x, y, mark))
    for (kind, _, _), them in sorted(found.items(), key=lambda it: it[1][0][0]):
        x, y, mark = them[0]
        sheet.signs.add(kind)
        text = f"{mark.text} at {thousands(mark.begins[0])} {sheet.unit}, {sheet.line_word} {mark.line}"
        if len(them) > 1:
            text += f", and {len(them) - 1} more up to {thousands(them[-1][2].begins[0])}"
            sheet.together += len(them) - 1
        yield x, y, kind, text
