"""`python -m gco` and `gco-picture`."""
import sys
from typing import List, Optional


def main(words: Optional[List[str]] = None) -> int:
    """Runs a command; answers 0, 1 where it was refused, 2 where seeds or words do not say what is
    wanted, and 130 where Ctrl-C stopped it."""
    from gco_proved import __version__
    from gco_proved.pictures import browser, commands, problems
    from gco_proved.pictures.options import command_line
    from gco_proved.pictures.running import Wanted
    from gco_proved.pictures.words import Wrong
    options = command_line(__version__).parse_args(words)
    try:
        if options.command == "page":
            return browser.open_page()
        if options.command == "label":
            wanted = Wanted(options.gap, options.refine, options.passes)
            sys.stdout.write(problems.label_lines(options.file, options.bound, wanted))
            return 0
        if options.command == "energy":
            sys.stdout.write(problems.energy_lines(options.file))
            return 0
        return commands.run_picture(options)
    except Wrong as wrong:
        print(f"gco {options.command}: {wrong}", file=sys.stderr)
        return wrong.status
    except problems.Line as line:
        print(line, file=sys.stderr)
        return 1
    except KeyboardInterrupt:
        print(f"gco {options.command}: stopped before the first move: nothing is written",
              file=sys.stderr)
        return commands.STOPPED


if __name__ == "__main__":
    sys.exit(main())
