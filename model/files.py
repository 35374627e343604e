"""The files that the model makes, and the pages that hold its tables: path from the root, and octets."""

import os

import cases
import hearings
import listings
import reference

TREE = os.path.dirname(os.path.dirname(os.path.abspath(__file__)))


def made_files():
    calls, answers = cases.replay_files()
    replayed = [("crates/replay/stdin", calls), ("crates/replay/stdout", answers)]
    printed = listings.text(listings.printed_logs() + hearings.printed_captures())
    return replayed + listings.listed_files() + hearings.heard_files() + [("crates/file_cases/stdout", printed)]


def made_pages(root):
    """The pages of a tree with the tables that the model makes."""
    return [(reference.PAGE, reference.page(root).encode("utf-8"))]
