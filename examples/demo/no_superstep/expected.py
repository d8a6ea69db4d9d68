"""The closed form of the net, `../closed_form.py`, for the words of this folder."""
import pathlib

exec((pathlib.Path(__file__).resolve().parent.parent / "closed_form.py").read_text())
