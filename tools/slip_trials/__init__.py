"""Tries slips: wrong bodies and wrong definitions that the prover has to refuse, and that the gate does not try."""
