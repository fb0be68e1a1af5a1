" Texts of workers in occam are compiled by :make. The colours and the indentation are those that vim has of occam.
compiler tpw
