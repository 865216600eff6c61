/* KEY The area of each gauge's piece, and their total */
@@
