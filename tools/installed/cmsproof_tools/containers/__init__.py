"""Front ends: each finds in a file of its form the SignedData and what they sign. None of them decides: what they find is handed to
the proved checker, and they can only refuse more."""
