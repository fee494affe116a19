"""Texts and plans in TOML."""
import json


def is_plain(text, lines=False):
    """Whether each character may stand as it is."""
    return all(" " <= letter != "\x7f" or (lines and letter == "\n") for letter in text)


def text(value):
    """A text of one line, with as few escapes as can be."""
    if is_plain(value) and '"' not in value and "\\" not in value:
        return f'"{value}"'
    if is_plain(value) and "'" not in value:
        return f"'{value}'"
    if is_plain(value) and "'''" not in value and not value.startswith("'") and not value.endswith("'"):
        return f"'''{value}'''"
    return json.dumps(value, ensure_ascii=False).replace("\x7f", "\\u007f")


def block(value):
    """A text of several lines, which begins and ends with a line feed of its own."""
    value = f"\n{value}\n"
    if is_plain(value, lines=True) and "'''" not in value:
        return f"'''{value}'''"
    lines = [json.dumps(line, ensure_ascii=False).replace("\x7f", "\\u007f")[1:-1] for line in value.split("\n")]
    return '"""' + "\n".join(lines) + '"""'


def plan(table, alter, clients, tables, version=1):
    """A plan: `clients` are lists of lines, `tables` pairs of a CREATE TABLE and rows."""
    parts = [f"version = {version}\n", f"table = {text(table)}\n", f"alter = {text(alter)}\n"]
    if clients:
        parts.append(f"clients = [{', '.join(block(chr(10).join(lines)) for lines in clients)}]\n")
    for create, rows in tables:
        parts.append(f"\n[[tables]]\ncreate = {block(create)}\n")
        if rows:
            parts.append("rows = [\n" + "".join(f"  {text(row)},\n" for row in rows) + "]\n")
    return "".join(parts)
