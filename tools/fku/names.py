"""Names of a section text for names of any length and letters, and back again.

A comment `# name: KEY TEXT` of a section text says which text the name KEY stands for; a name without such a comment
stands for itself. The standard library is enough.
"""
import re

from fku.section_text import MOST_NAME, is_name

LINE = re.compile(r"#\s*name:\s*(\S+)\s+(.*?)\s*$")


class Names:
    """Gives each text a name of its own that a section text can have: the text itself where it is one."""

    def __init__(self):
        self.texts = {}  # from names to texts
        self.names = {}  # from texts to names

    def name(self, text: str) -> str:
        """Gives the name of a text, the same at each call."""
        if text not in self.names:
            plain = re.sub(r"[^\w.-]+", "_", text, flags=re.ASCII).strip("_")[:MOST_NAME] or "unnamed"
            name, count = (text if is_name(text) else plain), 1
            while name in self.texts:
                count += 1
                end = f"_{count}"
                name = plain[: MOST_NAME - len(end)] + end
            self.names[text], self.texts[name] = name, text
        return self.names[text]

    def notes(self) -> list[str]:
        """Gives the comments for the names that are not their texts, without the sign # at their front."""
        return [f"name: {name} {' '.join(text.split())}" for name, text in self.texts.items() if name != text]


def read(text: bytes) -> dict[str, str]:
    """Gives the texts for the names of a section text, from its comments."""
    found = (LINE.match(line.strip()) for line in text.decode("utf-8", "replace").split("\n"))
    return {match[1]: match[2] for match in found if match}
