"""What strains a built program, and what of it is compared with the second reading: the commands of `python3 scripts/stress`, and what they share."""
