"""The rule paper's numbers: what each is called, when it is given, and what its place names."""

from dataclasses import dataclass
from typing import Tuple


@dataclass(frozen=True)
class Number:
    """`place` names the numbers of the place that mean something, in their order."""
    number: int
    name: str
    says: str
    place: Tuple[str, ...] = ()


READING = "Each section of a file is a count and so many rows; each starts where the one before it ended."

NUMBERS = {one.number: one for one in (
    Number(0, "accepted", "Every rule of the paper holds."),
    Number(1, "the day file ends too soon", READING, ("section",)),
    Number(2, "a count of the day file is beyond its limits", READING, ("section",)),
    Number(3, "a field of the day file does not fit", "Every field lies in its range and every row keeps its section's rule.",
           ("section", "row", "field")),
    Number(4, "bytes behind the last section of the day file", READING),
    Number(5, "the clearing file ends too soon", READING, ("section",)),
    Number(6, "a count of the clearing file is not the one that the day file asks", READING, ("section",)),
    Number(7, "a field of the clearing file does not fit", "Every field lies in its range.", ("section", "row", "field")),
    Number(8, "bytes behind the last section of the clearing file", READING),
    Number(11, "the price rule", "Every price lies from floor to ceiling, both allowed.", ("zone", "period")),
    Number(12, "the capacity rule", "A flow is at most the forward capacity and at least minus the back capacity.", ("line", "period")),
    Number(13, "the quantity rule", "A step's accepted volume is at most its quantity.", ("step",)),
    Number(20, "the least ratio", "A block's ratio is 0, or from its least ratio to 1,000; a least ratio of 0 stands for 1,000.",
           ("block",)),
    Number(21, "whole volumes", "What is accepted of a block in a period, quantity times ratio over 1,000, is a whole number.",
           ("block", "period")),
    Number(14, "the balance rule", "The net position, what is sold less what is bought, equals the flows leaving less the flows entering.",
           ("zone", "period")),
    Number(15, "the step rule", "A sell step below its zone's price is accepted in full, above it not at all; a buy step above the price "
           "in full, below it not at all. At the price any volume is allowed.", ("step",)),
    Number(16, "the line rule", "Where \"to\" is dearer than \"from\" the flow equals the forward capacity, where it is cheaper minus the "
           "back capacity; equal prices ask nothing.", ("line", "period")),
    Number(17, "the block rule", "An accepted sell block has quantity times price, over its periods, not below its limit times its whole "
           "quantity; a buy block not above.", ("block",)),
    Number(18, "the room is too short", "The room that is lent for the statement is at least as long as the statement."),
    Number(19, "no such section to look up", "A look-up asks for one of the day file's sections, which are numbered from 1."),
)}


def named(verdict, market=None):
    """A verdict by its number's name and its place."""
    place = place_words(verdict, market)
    return NUMBERS[verdict.number].name + (f", at {place}" if place else "")


def place_words(verdict, market=None):
    """The place of a verdict in words: zone 1 (code 20), period 0."""
    words = []
    for name, value in zip(NUMBERS[verdict.number].place, verdict.place):
        code = f" (code {market.codes[value]})" if name == "zone" and market is not None else ""
        words.append(f"{name} {value}{code}")
    return ", ".join(words)
