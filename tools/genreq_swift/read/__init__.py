"""Reads Swift: from files to declarations as they are written."""
