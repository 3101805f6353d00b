"""Words that no page, comment or help says, each with what to say in its place."""
import re

# Names in code are free.
WORDS = (
    (r"behind(?! (?:nginx|a proxy|caches)\b)", "after"),
    (r"tells?|told|telling", "reports, prints, returns, answers, says"),
    (r"(?:a|some|each|the) front of", "a prefix of"),
    (r"wants? (?:of )?memory|memory (?:is|was|were) (?:short|wanted)", "out of memory"),
    (r"(?:the|these|those) words (?:of (?:a|the) command|that no)", "the arguments"),
    (r"named anew", "added or renamed"),
    (r"(?:is|was|are|were|been) taken over|takes? \w+ over", "is upgraded, is migrated"),
    (r"stands? beside|stood beside", "other tables are allowed"),
    (r"(?:is|are|was|were) borne", "is allowed"),
    (r"(?:in|by) pieces|piece by piece|cut anywhere", "in chunks of any size"),
    (r"brings? (?:a|the|its) \w+ into", "imports"),
    (r"stands? (?:at|in)|stood (?:at|in)", "is at, is in"),
    (r"li(?:fe|ves)", "session"),
)

# What comments of sources do not say either.
WORDS_OF_SOURCES = WORDS + (
    (r"beside", "with, also"),
    (r"stands? (?:before|after|below|under|on|there|twice)", "comes, is"),
    (r"(?:a|without a|the) \w+ (?:at its|in) front(?! of)", "leading"),
    (r"gives? back|gave back", "hands back, returns"),
    (r"ever after", "from then on"),
    (r"anew", "again"),
)


def found_in(text, words=WORDS):
    """The words of a text that are on a list, each with its line and what to say."""
    text = re.sub(r"`[^`\n]*`", lambda it: " " * len(it[0]), text)
    for word, better in words:
        for found in re.finditer(rf"\b(?:{word})\b".replace(" ", r"\s+"), text, re.I):
            yield text.count("\n", 0, found.start()) + 1, " ".join(found[0].split()), better
