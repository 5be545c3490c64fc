"""The programs around the server: acmefs-front, acmefs-view, acmefs-tree and acmefs-script."""
