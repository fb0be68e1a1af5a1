" Texts of workers are assembled by :make.
compiler tpw
