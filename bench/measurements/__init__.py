"""Results of measurements, and the parts of pages that are made from them. bench/table, bench/bursts and endurance/endurance
write results; bench/pages makes the parts."""
