"""Reads Swift sources, and asks genreq of their protocols and generic declarations."""
