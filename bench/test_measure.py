#!/usr/bin/env python3
"""Tests that one call of measure.py --renew writes each table and the mean into the pages, with
figures that are made up and nothing run:

    python3 bench/test_measure.py
"""
import contextlib
import io
import shutil
import sys
import tempfile
import types
from pathlib import Path

HERE = Path(__file__).resolve().parent
# The pictures want numpy and Pillow; here none is made.
sys.modules.setdefault("inputs", types.SimpleNamespace(make_inputs=lambda folder: None))
sys.path.insert(0, str(HERE))
sys.path.insert(0, str(HERE.parent / "tools/checks"))
import check_figures  # noqa: E402
import measure  # noqa: E402

PAGES = [check_figures.MEASURED, *check_figures.TOLD]


def made_up(command, picture):
    """gco takes half of the other's time, and less with threads; both answer the same."""
    is_peer = Path(command[0]).name == "peer"
    clock = 2.0 if is_peer else 0.5 if "--threads" in command else 1.0
    answer = measure.hashlib.sha256(str(picture).encode()).hexdigest()
    return {"clock": clock, "processor": clock, "memory": 10.0, "answer": answer}


def renewed(top, answer):
    """The status of a run that renews the pages below a folder, and what it printed."""
    measure.TOP, measure.run_once = top, answer
    measure.shares_of = lambda *_: measure.collections.Counter(cutting=60.0, deciding=40.0)
    printed = io.StringIO()
    sys.argv = ["measure.py", "--gco", __file__, "--out", str(top), "--renew"]
    with contextlib.redirect_stdout(printed), contextlib.redirect_stderr(io.StringIO()):
        try:
            measure.main()
        except SystemExit as end:
            return end.code, printed.getvalue()


def main():
    with tempfile.TemporaryDirectory() as folder:
        top = Path(folder)
        for page in PAGES:
            (top / page).parent.mkdir(exist_ok=True)
            shutil.copy(HERE.parent / page, top / page)
        status, printed = renewed(top, made_up)
        page = (top / check_figures.MEASURED).read_text(encoding="utf-8")
        assert status == 0, status
        for line in printed.split("\n"):
            assert line in page, f"not in the page: {line}"
        rows = [part.split("<!-- end -->")[0] for part in page.split("<!-- bench ")[1:]]
        told = [line for part in rows for line in part.split("\n")[1:] if line]
        assert set(told) <= set(printed.split("\n")), "an older line stands between the marks"
        assert check_figures.mean_told(top) == "0.50" and not list(check_figures.faults(top))

        def unlike(command, picture):
            return {**made_up(command, picture), "answer": str(command[0])}

        assert renewed(top, unlike)[0] == 1, "other bytes are no fault"
    print("measure.py --renew writes all tables and the mean")


if __name__ == "__main__":
    main()
