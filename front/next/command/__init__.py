"""The command abe: tables from files, a question fitted to the engine, its plan, its answer, and mistakes in words."""

VERSION = "0.5.0"
