"""``python3 -m dwejrasq`` is the command dwj."""

from .command import main

main()
