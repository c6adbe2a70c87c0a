# As many zeros as RAM has.
.org 16777216
